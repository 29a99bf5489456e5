// One thread sets values on a seat. When it has ended, another one goes on with that seat: it looks a key up, and walks the pairs in order.
#include "bwtree.hpp"
#include <iostream>
#include <thread>

int main() {
    auto tree = bw::tree::for_keys(2, 100);
    auto seat = tree.lease();
    std::thread([&seat] {
        seat.upsert("Bern", "Switzerland");
        seat.upsert("Vienna", "Austria");
        seat.upsert("Paris", "France");
        seat.upsert("Oslo", "Norway");
    }).join();

    if (auto value = seat.get("Bern")) std::cout << "Bern: " << *value << '\n';
    seat.walk("", [](auto key, auto value) {
        std::cout << key << ", " << value << '\n';
        return true;
    });
}
