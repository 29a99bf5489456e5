// JDK's skip list, in a process of its own that waits while other cells run.
#ifndef JAVA_HPP
#define JAVA_HPP

#include "peer.hpp"
#include <sys/wait.h>
#include <unistd.h>

struct Java : Peer {
    pid_t process = 0;
    FILE *to = nullptr, *from = nullptr;
    explicit Java(const char *classes) {
        int down[2], up[2];
        must(pipe(down) == 0 && pipe(up) == 0, "no pipes");
        process = fork();
        must(process >= 0, "no process for java");
        if (process == 0) {
            dup2(down[0], 0), dup2(up[1], 1);
            for (int end : {down[0], down[1], up[0], up[1]}) close(end);
            execlp("java", "java", "-cp", classes, "SkipList", static_cast<char *>(nullptr));
            _exit(127);
        }
        close(down[0]), close(up[1]);
        to = fdopen(down[1], "w"), from = fdopen(up[0], "r");
    }
    ~Java() override {
        fclose(to), fclose(from);
        waitpid(process, nullptr, 0);
    }
    const char *name() const override { return "JDK ConcurrentSkipListMap"; }
    double asked(int first, int second, int third) {
        double answer = 0;
        fprintf(to, "%d %d %d\n", first, second, third), fflush(to);
        must(fscanf(from, "%lf", &answer) == 1, "java doesn't answer");
        return answer;
    }
    // It has some time to compile what it runs.
    void load(const std::vector<Key> &keys) override {
        asked(-1, int(keys.size()), 0);
        for (int kind = LOOKUPS; kind <= SCANS; kind++) asked(kind, 2, 500);
    }
    double cell(const std::vector<Key> &, Kind kind, int threads, int milliseconds) override { return asked(kind, threads, milliseconds); }
    void put(int, const Key &, uint64_t) override {}
    bool get(int, const Key &) override { return false; }
    int scan(int, const Key &, int) override { return 0; }
};

#endif
