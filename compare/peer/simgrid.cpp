// SimGrid's max-min solver on the same records that the library reads, for the program `bench`, which
// builds this file, starts it and talks with it line by line.
//
//   asked              answered
//                      ready VERSION             once, at the start
//   load HEX           loaded                    the records of the next lines, all of kinds 1 and 2,
//                                                which the library accepts
//   fresh N            calculated NANOSECONDS NANOSECONDS
//                                                N calculations from nothing, and disposing of them
//   run N              ran NANOSECONDS           N calculations in a system that is kept
//   solve N            solved NANOSECONDS        the same, of which only the solving is timed
//   rates              rates 0 3.33 1 3.33 ...   each session and its rate, as the last one left them
//
// A fault is told on the standard error, and ends the program with 1.
//
// One calculation reads the records, makes a constraint for each link, a variable for each session and
// an element for each link of its path, solves, and reads the values.
// - From nothing, it makes a new system first. To dispose of this, with all that is in it, is timed by
//   itself.
// - In the system that is kept, the links' constraints stay too, as they do in a simulation, where they
//   live as long as the platform: those that are there are given their capacities. The variables are
//   freed, and that is timed with the rest.

#include <malloc.h>

#include <algorithm>
#include <array>
#include <chrono>
#include <cstdint>
#include <cstdlib>
#include <cstring>
#include <iostream>
#include <optional>
#include <string>
#include <string_view>
#include <vector>

// The solver's header is not installed with the library, so the entry points that are called here
// are declared as they stand there. The linker finds them by name and types, or says what is missing.
namespace simgrid::kernel {
namespace resource {
class Resource;
class Action;
} // namespace resource
namespace lmm {
class Constraint;
class Variable;
class System {
public:
  virtual ~System(); // the first of the virtual functions
  static System* build(std::string_view solver, bool selective_update);
  Constraint* constraint_new(resource::Resource* id, double bound);
  void update_constraint_bound(Constraint* constraint, double bound);
  Variable* variable_new(resource::Action* id, double penalty, double bound, unsigned long constraints);
  void expand(Constraint* constraint, Variable* variable, double weight, bool force_creation);
  void solve();
  void variable_free_all();
};
} // namespace lmm
} // namespace simgrid::kernel
extern "C" void sg_version_get(int* major, int* minor, int* patch);

using simgrid::kernel::lmm::Constraint;
using simgrid::kernel::lmm::System;
using simgrid::kernel::lmm::Variable;
using Clock = std::chrono::steady_clock;

namespace {

[[noreturn]] void fail(const std::string& why) {
  std::cerr << "simgrid: " << why << std::endl;
  std::exit(1);
}

long long nanoseconds(Clock::duration time) {
  return std::chrono::duration_cast<std::chrono::nanoseconds>(time).count();
}

double double_at(const Variable* variable, size_t place) {
  double value;
  std::memcpy(&value, reinterpret_cast<const char*>(variable) + place, sizeof value);
  return value;
}

// Where in a Variable its value stands, which only the missing header says: the one place at which
// five variables have the values that they must have. Each is searched up to the end of its block.
size_t find_value() {
  struct Known {
    size_t link;
    double bound; // -1: none
    double value;
  };
  // One alone on its link; two that share one; one with a bound, and one that has the rest.
  const std::array<double, 3> capacities = {10.5, 7.25, 100};
  const std::array<Known, 5> known = {
      {{0, -1, 10.5}, {1, -1, 3.625}, {1, -1, 3.625}, {2, 2.125, 2.125}, {2, -1, 97.875}}};
  System* system = System::build("maxmin", false);
  std::vector<Constraint*> links;
  for (double capacity : capacities)
    links.push_back(system->constraint_new(nullptr, capacity));
  std::vector<Variable*> variables;
  size_t end = SIZE_MAX;
  for (const Known& one : known) {
    Variable* variable = system->variable_new(nullptr, 1, one.bound, 1);
    system->expand(links[one.link], variable, 1, false);
    end = std::min(end, malloc_usable_size(variable));
    variables.push_back(variable);
  }
  system->solve();
  std::vector<size_t> places;
  for (size_t place = 0; place + sizeof(double) <= end; place += alignof(double)) {
    auto has_value = [place](const Variable* variable, const Known& one) {
      return double_at(variable, place) == one.value;
    };
    if (std::equal(variables.begin(), variables.end(), known.begin(), has_value))
      places.push_back(place);
  }
  system->variable_free_all();
  delete system;
  if (places.size() != 1)
    fail("the value of a Variable is found at " + std::to_string(places.size()) + " places, not at one");
  return places[0];
}

struct Rate {
  int session;
  double value;
};

// A system with the problem in it. Its end disposes of both.
class Solver {
public:
  Solver() { sessions_.reserve(32); }
  ~Solver() {
    clear();
    delete system_;
  }
  Solver(const Solver&) = delete;
  Solver& operator=(const Solver&) = delete;

  // From the records to the problem.
  void build(const std::vector<unsigned char>& records) {
    for (size_t at = 0; at < records.size();) {
      const unsigned char* record = &records[at];
      if (record[0] == 1) {
        declare(record);
        at += 6;
      } else {
        join(record);
        at += 19;
      }
    }
  }

  void solve() { system_->solve(); }

  // From the solved problem to the rates.
  void read(size_t value_place, std::vector<Rate>& rates) const {
    rates.clear();
    for (const Session& session : sessions_)
      rates.push_back({session.number, double_at(session.variable, value_place)});
  }

  // What is left are the constraints, without variables.
  void clear() {
    sessions_.clear();
    system_->variable_free_all();
  }

private:
  struct Session {
    int number;
    Variable* variable;
  };

  static double number_at(const unsigned char* bytes) {
    return static_cast<uint32_t>(bytes[0]) << 24 | bytes[1] << 16 | bytes[2] << 8 | bytes[3];
  }

  // Kind 1: link (1 byte), capacity (4).
  void declare(const unsigned char* record) {
    Constraint*& link = links_[record[1]];
    double capacity = number_at(record + 2);
    if (link == nullptr)
      link = system_->constraint_new(nullptr, capacity);
    else
      system_->update_constraint_bound(link, capacity);
  }

  // Kind 2: session (1), access (4), maximum (4), path length (1), eight link bytes.
  void join(const unsigned char* record) {
    double access = number_at(record + 2);
    double maximum = number_at(record + 6);
    size_t length = record[10];
    double bound = maximum > 0 && maximum < access ? maximum : access;
    Variable* variable = system_->variable_new(nullptr, 1, bound, length);
    for (size_t hop = 0; hop < length; hop++)
      system_->expand(links_[record[11 + hop]], variable, 1, false);
    sessions_.push_back({record[1], variable});
  }

  System* system_ = System::build("maxmin", false);
  std::array<Constraint*, 64> links_{};
  std::vector<Session> sessions_;
};

std::vector<unsigned char> bytes_of(const std::string& hex) {
  std::vector<unsigned char> bytes;
  for (size_t at = 0; at + 2 <= hex.size(); at += 2)
    bytes.push_back(static_cast<unsigned char>(std::stoi(hex.substr(at, 2), nullptr, 16)));
  return bytes;
}

long asked_times() {
  long times;
  if (!(std::cin >> times))
    fail("not asked how many times");
  return times;
}

// The records, where in a Variable its value stands, and the rates as the last calculation left them.
struct Work {
  std::vector<unsigned char> records;
  size_t value_place;
  std::vector<Rate> rates;
};

void calculate(Solver& solver, Work& work) {
  solver.build(work.records);
  solver.solve();
  solver.read(work.value_place, work.rates);
}

struct Fresh {
  Clock::duration calculating{};
  Clock::duration disposing{};
};

Fresh fresh(Work& work, long times) {
  Fresh sums;
  for (long k = 0; k < times; k++) {
    std::optional<Solver> solver;
    auto start = Clock::now();
    solver.emplace();
    calculate(*solver, work);
    auto calculated = Clock::now();
    solver.reset();
    sums.disposing += Clock::now() - calculated;
    sums.calculating += calculated - start;
  }
  return sums;
}

Clock::duration run(Solver& kept, Work& work, long times) {
  auto start = Clock::now();
  for (long k = 0; k < times; k++) {
    calculate(kept, work);
    kept.clear();
  }
  return Clock::now() - start;
}

Clock::duration solve(Solver& kept, Work& work, long times) {
  Clock::duration solving{};
  for (long k = 0; k < times; k++) {
    kept.build(work.records);
    auto start = Clock::now();
    kept.solve();
    solving += Clock::now() - start;
    kept.read(work.value_place, work.rates);
    kept.clear();
  }
  return solving;
}

} // namespace

int main() {
  int major, minor, patch;
  sg_version_get(&major, &minor, &patch);
  Work work{{}, find_value(), {}};
  Solver kept;
  std::cout << "ready " << major << '.' << minor;
  if (patch != 0)
    std::cout << '.' << patch;
  std::cout << std::endl;

  std::string asked;
  while (std::cin >> asked) {
    if (asked == "load") {
      std::string hex;
      std::cin >> hex;
      work.records = bytes_of(hex);
      std::cout << "loaded" << std::endl;
    } else if (asked == "fresh") {
      Fresh sums = fresh(work, asked_times());
      std::cout << "calculated " << nanoseconds(sums.calculating);
      std::cout << ' ' << nanoseconds(sums.disposing) << std::endl;
    } else if (asked == "run") {
      std::cout << "ran " << nanoseconds(run(kept, work, asked_times())) << std::endl;
    } else if (asked == "solve") {
      std::cout << "solved " << nanoseconds(solve(kept, work, asked_times())) << std::endl;
    } else if (asked == "rates") {
      std::cout << "rates";
      std::cout.precision(17);
      for (const Rate& rate : work.rates)
        std::cout << ' ' << rate.session << ' ' << rate.value;
      std::cout << std::endl;
    } else {
      fail("asked for " + asked);
    }
  }
}
