// Tells how long a tree of calls with spawns takes by so many workers, by a model: when a deque holds enough, so that a spawned child is called.
//
// usage: c++ -O2 pushes.cc -o pushes && ./pushes [NUMBER]      fib of that number, by default 25
//
// Each line is of so many workers: milliseconds, the middle of 21 rounds in which the others begin at other moments, and how many
// continuations were stolen. First where a deque holds three, four or five at most, then where it holds two and, by pushes of which a worker has
// four at first and gets one back for each that a thief takes, six at most. The times of single steps are those of the program of 30 November
// 2026, in nanoseconds; it steals as often as the model does, some thirty times by four workers.
#include <algorithm>
#include <cstdio>
#include <cstdlib>
#include <deque>
#include <vector>
using std::vector;
typedef long long Time;
const Time CALL = 30, RETURN = 35, PUSH = 120, POP = 80, LOOK = 1000, STEAL = 9000, FOLD = 9000, LAY = 3000, BEGIN = 3000, LATE = 60000;
enum Stage { ENTRY, SPAWNED, CALLED };
enum State { HELD, OVER, WAITING };
struct Instance { int number; Stage stage; bool is_apart; };
struct Strand { vector<Instance> instances; State state; int next; };
struct Worker { Time now; int strand; std::deque<vector<Instance>> waiting; int more; bool has_left; };
struct Policy { int least, most, more; };

struct Run {
  Policy policy;
  vector<Strand> strands;
  vector<Worker> workers;
  Time lock = 0, end = 0;
  int stolen = 0;
  bool is_over = false;

  Run(Policy policy, int count, int number, unsigned seed) : policy(policy) {
    strands.push_back({{{number, ENTRY, false}}, HELD, -1});
    for (int k = 0; k < count; k++) {
      seed = seed * 1103515245 + 12345;
      workers.push_back({k == 0 ? 0 : LATE + seed / 65536 % LATE, k == 0 ? 0 : -1, {}, policy.more, false});
    }
  }

  // Takes the lock for so long.
  void lock_for(Worker &me, Time time) {
    lock = std::max(me.now, lock) + time;
    me.now = lock;
  }

  // Goes on with the first two neighbours that may be folded.
  bool fold(Worker &me) {
    for (int left = 0; left >= 0 && strands[left].next >= 0; left = strands[left].next) {
      Strand &right = strands[strands[left].next];
      if (strands[left].state != OVER || right.state != WAITING) continue;
      strands[left].next = right.next;
      strands[left].instances.swap(right.instances);
      strands[left].instances.back().is_apart = false;
      strands[left].state = HELD;
      lock_for(me, FOLD);
      me.now += BEGIN;
      me.strand = left;
      return true;
    }
    return false;
  }

  // Goes on with the oldest continuation of the next worker that has one.
  bool steal(Worker &me, int number) {
    int count = workers.size();
    for (int k = 1; k < count; k++) {
      Worker &victim = workers[(number + k) % count];
      if (victim.waiting.empty()) continue;
      strands.push_back({victim.waiting.front(), HELD, strands[victim.strand].next});
      victim.waiting.pop_front();
      victim.more = std::min(victim.more + 1, policy.more);
      strands.back().instances.back().is_apart = true;
      me.strand = strands[victim.strand].next = strands.size() - 1;
      stolen++;
      lock_for(me, STEAL);
      me.now += BEGIN;
      return true;
    }
    return false;
  }

  // What a worker without a strand does.
  void look(int number) {
    Worker &me = workers[number];
    lock_for(me, LOOK);
    if (!fold(me) && !steal(me, number)) me.now += LOOK;
  }

  // Lays the worker's strand down, and looks.
  void lay(int number, State state) {
    Worker &me = workers[number];
    lock_for(me, LAY);
    strands[me.strand].state = state;
    if (state == OVER && me.strand == 0 && strands[0].next < 0) {
      is_over = true;
      end = me.now;
    }
    me.strand = -1;
    if (!is_over) look(number);
  }

  // Spawns the first child of the topmost instance.
  void spawn(Worker &me, vector<Instance> &instances) {
    instances.back().stage = SPAWNED;
    Instance child = {instances.back().number - 1, ENTRY, false};
    int held = me.waiting.size();
    bool is_enough = held >= policy.least && (held >= policy.most || me.more == 0);
    if (!is_enough) {
      if (held >= policy.least) me.more--;
      me.now += PUSH;
      me.waiting.push_back(instances);
      instances.clear();
    }
    instances.push_back(child);
  }

  // A step of the worker's strand.
  void step(int number) {
    Worker &me = workers[number];
    vector<Instance> &instances = strands[me.strand].instances;
    if (instances.empty() && me.waiting.empty()) return lay(number, OVER);
    if (instances.empty()) {
      instances.swap(me.waiting.back());
      me.waiting.pop_back();
      me.now += POP;
      return;
    }
    Instance &top = instances.back();
    if (top.stage == ENTRY) {
      me.now += CALL;
      if (top.number < 2) instances.pop_back();
      else spawn(me, instances);
    } else if (top.stage == SPAWNED) {
      top.stage = CALLED;
      instances.push_back({top.number - 2, ENTRY, false});
    } else if (top.is_apart) {
      lay(number, WAITING);
    } else {
      me.now += RETURN;
      instances.pop_back();
    }
  }

  // Runs to the end, the worker first that is the earliest.
  void go() {
    while (!is_over) {
      int first = 0;
      for (int k = 1; k < (int)workers.size(); k++) if (workers[k].now < workers[first].now) first = k;
      if (workers[first].strand >= 0) step(first);
      else look(first);
    }
  }
};

int main(int count, char **words) {
  int number = count > 1 ? atoi(words[1]) : 25;
  const Policy policies[] = {{3, 3, 0}, {4, 4, 0}, {5, 5, 0}, {2, 6, 4}};
  for (int workers : {1, 2, 4, 8, 16}) {
    printf("%2d workers:", workers);
    for (Policy policy : policies) {
      vector<std::pair<Time, int>> rounds;
      for (unsigned seed = 1; seed <= 21; seed++) {
        Run run(policy, workers, number, seed * 7919);
        run.go();
        rounds.push_back({run.end, run.stolen});
      }
      std::sort(rounds.begin(), rounds.end());
      printf("  %.2f ms, %d stolen;", rounds[10].first / 1e6, rounds[10].second);
    }
    printf("\n");
  }
}
