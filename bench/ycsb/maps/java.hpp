// JDK's skip list, in a process of its own, which reads the same keys from files and waits while other cells run.
#ifndef MAPS_JAVA_HPP
#define MAPS_JAVA_HPP

#include "../map.hpp"
#include <map>
#include <sys/wait.h>
#include <unistd.h>

class Java : public Map {
    Folder folder{"java"};
    pid_t process = 0;
    FILE *to = nullptr, *from = nullptr;
    std::map<const void *, std::string> files;

    // The file of an array of keys, which stays where it is.
    const std::string &file_of(const std::vector<Key> &keys) {
        std::string &path = files[keys.data()];
        if (!path.empty()) return path;
        path = folder.path + "/" + std::to_string(files.size());
        FILE *file = fopen(path.c_str(), "wb");
        must(file && fwrite(keys.data(), sizeof(Key), keys.size(), file) == keys.size() && fclose(file) == 0, "no file for java");
        return path;
    }

    Cell asked(const std::string &line) {
        Cell cell;
        unsigned long long operations, p50, p99, p999;
        fprintf(to, "%s\n", line.c_str()), fflush(to);
        must(fscanf(from, "%llu %lf %llu %llu %llu", &operations, &cell.seconds, &p50, &p99, &p999) == 5, "java doesn't answer");
        cell.operations = operations, cell.p50 = p50, cell.p99 = p99, cell.p999 = p999;
        return cell;
    }

public:
    explicit Java(const char *classes) {
        int down[2], up[2];
        must(pipe(down) == 0 && pipe(up) == 0, "no pipes");
        process = fork();
        must(process >= 0, "no process for java");
        if (process == 0) {
            dup2(down[0], 0), dup2(up[1], 1);
            for (int end : {down[0], down[1], up[0], up[1]}) close(end);
            execlp("java", "java", "-cp", classes, "SkipList", static_cast<char *>(nullptr));
            _exit(127);
        }
        close(down[0]), close(up[1]);
        to = fdopen(down[1], "w"), from = fdopen(up[0], "r");
    }
    ~Java() override {
        fclose(to), fclose(from);
        waitpid(process, nullptr, 0);
    }
    const char *name() const override { return "JDK ConcurrentSkipListMap"; }
    void insert(int, const Key &, uint64_t) override {}
    void update(int, const Key &, uint64_t) override {}
    bool get(int, const Key &, uint64_t &) override { return false; }
    unsigned scan(int, const Key &, unsigned) override { return 0; }
    Cell load(const std::vector<Key> &keys, uint64_t count, int threads) override {
        return asked("load " + file_of(keys) + " " + std::to_string(count) + " " + std::to_string(threads));
    }
    // A short run before it gives java time to compile.
    Cell run(const Workload &it, const std::vector<Key> &drawn, const std::vector<Key> &, uint64_t, int threads, int milliseconds) override {
        std::string line = "run " + file_of(drawn);
        for (unsigned number : {it.reads, it.updates, it.changes, it.scans, it.inserts, unsigned(threads)}) line += " " + std::to_string(number);
        asked(line + " " + std::to_string(std::min(milliseconds, 300)));
        return asked(line + " " + std::to_string(milliseconds));
    }
};

#endif
