// Judges a trace edge by edge, as a testbench does while it makes them, and prints what `vmebus replay` prints.
//
//     bench SCENARIO TRACE
//
// The status is 0, or 2 if an edge was refused, or 1 at a fault. It is written for C++98 and later.
#include <fstream>
#include <iostream>
#include <iterator>
#include <stdexcept>
#include <string>

#include "vmebus.h"

// A backplane and all edges that it has accepted. A copy is a snapshot.
class Bus {
  public:
    // Opens a bus at power-up, under the rules of version 1 or 2. Throws the fault in words.
    Bus(uint32_t version, const std::string &scenario) {
        uint32_t fault = vmebus_open(&bus_, version, scenario.data(), scenario.size());
        if (fault == 0) return;
        if (fault == VMEBUS_FAULT_SIZE) throw std::runtime_error("header and library are of different sizes");
        char line[VMEBUS_MOST_FAULT + 1] = "";
        vmebus_fault_text(version, scenario.data(), scenario.size(), line, sizeof line);
        throw std::runtime_error(line);
    }

    // Judges the edge of a line, makes it if it is accepted, and returns the verdict. Throws if the line spells no edge.
    std::string step(const std::string &line) {
        char verdict[VMEBUS_MOST_VERDICT + 1];
        uint32_t delivered, answer = vmebus_line(&bus_, line.data(), line.size(), &delivered);
        if (answer == VMEBUS_NO_EDGE) throw std::runtime_error("'" + line + "' is the line of no edge");
        vmebus_verdict(answer, delivered, verdict, sizeof verdict);
        return verdict;
    }

    // The slot that holds the bus, or 0.
    uint32_t holder() const { return vmebus_holder(&bus_); }

  private:
    struct vmebus bus_;
};

// The text of a file.
static std::string text_of(const char *path) {
    std::ifstream file(path, std::ios::binary);
    if (!file) throw std::runtime_error(std::string(path) + " cannot be read");
    return std::string(std::istreambuf_iterator<char>(file), std::istreambuf_iterator<char>());
}

// Prints the verdict on each edge, and returns the status.
static int replay(const std::string &scenario, const std::string &trace) {
    bool has_header = trace.compare(0, 6, "vme 1\n") == 0 || trace.compare(0, 6, "vme 2\n") == 0;
    if (!has_header) throw std::runtime_error("the trace does not begin with vme 1 or vme 2");
    Bus bus(trace[4] == '1' ? 1 : 2, scenario);
    unsigned long accepted = 0, refused = 0;
    std::string::size_type at = 6, feed;
    for (; (feed = trace.find('\n', at)) != std::string::npos; at = feed + 1) {
        std::string verdict = bus.step(trace.substr(at, feed - at));
        if (verdict[0] == 'o') accepted++;
        else refused++;
        std::cout << accepted + refused << ' ' << verdict << '\n';
    }
    if (at != trace.size()) throw std::runtime_error("the trace ends within a line");
    std::cout << "accepted " << accepted << " refused " << refused << '\n';
    return refused != 0 ? 2 : 0;
}

int main(int count, char **words) {
    if (count != 3) {
        std::cerr << "usage: bench SCENARIO TRACE\n";
        return 1;
    }
    try {
        return replay(text_of(words[1]), text_of(words[2]));
    } catch (const std::exception &fault) {
        std::cout.flush();
        std::cerr << "bench: " << fault.what() << '\n';
        return 1;
    }
}
