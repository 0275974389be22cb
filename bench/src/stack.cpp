// The most bytes of stack that each function of the library uses, and both plans and the commitment with lent scratch: over
// example tickets, tickets of the structures that are measured, full ones among them, the same made impossible, drawn ones,
// two at which a lift is given up, and all of these damaged; commitments over runs on the records of both plans, with refused
// ones in between, and views of the records.
// Each call runs on a stack of its own that is filled with a pattern, and the lowest byte that is no longer of the pattern
// tells how deep it went. What a call of a function that does nothing leaves there is taken off.
#include <sys/mman.h>
#include <ucontext.h>

#include <algorithm>
#include <cstdio>
#include <cstdlib>
#include <cstring>
#include <filesystem>
#include <fstream>
#include <functional>
#include <iterator>
#include <set>

#include "../../include/beyunlak.h"
#include "ticket.h"

extern "C" {
uint32_t harness_plan(const uint8_t *, size_t, uint8_t *, size_t, uint32_t *, size_t, uint32_t *, uint32_t *);
uint32_t harness_plan_latest(const uint8_t *, size_t, uint8_t *, size_t, uint32_t *, size_t, uint32_t *, uint32_t *);
uint32_t harness_commit(const uint8_t *, size_t, uint32_t, uint32_t, uint32_t, uint32_t, uint8_t *, size_t, uint32_t *, size_t,
                        uint32_t *, uint32_t *);
}

namespace {

using Bytes = std::vector<uint8_t>;

constexpr size_t stack_bytes = 1 << 18;
constexpr uint8_t pattern = 0xa5;
// The least scratch that may be lent.
constexpr size_t scratch_numbers = 2400;

int tickets_each = 6;
int drawn_tickets = 600;

// ---- one call on a stack of its own

uint8_t *stack;
size_t untouched = 0;  // how many of its bytes have the pattern, from the lowest on
ucontext_t caller, callee;
std::function<uint32_t()> job;
uint32_t answer;

void run_job() { answer = job(); }

// How many bytes of the stack a call overwrites.
size_t depth_of(const std::function<uint32_t()> &call) {
    std::memset(stack + untouched, pattern, stack_bytes - untouched);
    job = call;
    getcontext(&callee);
    callee.uc_stack.ss_sp = stack;
    callee.uc_stack.ss_size = stack_bytes;
    callee.uc_link = &caller;
    makecontext(&callee, run_job, 0);
    swapcontext(&caller, &callee);
    static const Bytes page(4096, pattern);
    untouched = 0;
    while (!std::memcmp(stack + untouched, page.data(), page.size())) untouched += page.size();
    while (stack[untouched] == pattern) untouched++;
    return stack_bytes - untouched;
}

// ---- what is counted of each function

struct Function {
    const char *name;
    size_t calls = 0, most = 0;
    std::set<uint32_t> answers = {};

    uint32_t call(const std::function<uint32_t()> &ask) {
        most = std::max(most, depth_of(ask));
        calls++;
        answers.insert(answer);
        return answer;
    }
};

Function nothing = {"a function that does nothing"};
Function plan = {"beyunlak_plan"}, plan_latest = {"beyunlak_plan_latest"}, commit = {"beyunlak_commit"}, view = {"beyunlak_view"};
Function plan_lent = {"planning, scratch lent"}, plan_latest_lent = {"the latest plan, scratch lent"}, commit_lent = {"commitment, scratch lent"};
Function table = {"beyunlak_table"}, table_after = {"beyunlak_table_after"}, reason = {"beyunlak_reason"}, mend = {"beyunlak_mend"},
         part = {"beyunlak_part"};

uint32_t scratch[scratch_numbers], length, total;

// The C function and the one with lent scratch have to give the same answer and the same bytes.
void same(const Function &function, uint32_t one, uint32_t other, const Bytes &out, const Bytes &out_lent) {
    if (one == other && out == out_lent) return;
    std::printf("OTHER ANSWERS: %s %u, with lent scratch %u\n", function.name, one, other);
    std::exit(1);
}

// The record of a plan, or nothing where it is refused.
Bytes planned(bool latest, const Bytes &ticket, size_t out_len = BEYUNLAK_RECORD_MAX) {
    const auto door = latest ? beyunlak_plan_latest : beyunlak_plan;
    const auto lent = latest ? harness_plan_latest : harness_plan;
    Function &function = latest ? plan_latest : plan, &function_lent = latest ? plan_latest_lent : plan_lent;
    Bytes out(out_len), out_lent(out_len);
    const uint32_t one = function.call([&] { return door(ticket.data(), ticket.size(), out.data(), out.size()); });
    const uint32_t other = function_lent.call([&] {
        return lent(ticket.data(), ticket.size(), out_lent.data(), out_lent.size(), scratch, scratch_numbers, &length, &total);
    });
    same(function, one, other, out, out_lent);
    if (one != BEYUNLAK_ACCEPTED) return {};
    out.resize(length);
    return out;
}

// The record after a commitment by the event's owner, by the camera where there is no such event, or as it is where that is
// refused.
Bytes committed(const Bytes &record, uint32_t event, int64_t open, int64_t close, size_t out_len = BEYUNLAK_RECORD_MAX) {
    const bool there = record.size() > 4 && event > 0 && event <= record[4] && record.size() > 5 + event;
    const uint32_t asking = there ? record[5 + event] : static_cast<uint32_t>(BEYUNLAK_CAMERA);
    const uint32_t first = static_cast<uint32_t>(open), last = static_cast<uint32_t>(close);
    Bytes out(out_len), out_lent(out_len);
    const uint32_t one =
        commit.call([&] { return beyunlak_commit(record.data(), record.size(), asking, event, first, last, out.data(), out.size()); });
    const uint32_t other = commit_lent.call([&] {
        return harness_commit(record.data(), record.size(), asking, event, first, last, out_lent.data(), out_lent.size(), scratch,
                              scratch_numbers, &length, &total);
    });
    same(commit, one, other, out, out_lent);
    if (one != BEYUNLAK_ACCEPTED) return record;
    out.resize(length);
    return out;
}

// ---- tickets

Random drawing(1);

// Any number of events, of any devices, and of rules, with bounds from somewhat below 0 up to the horizon.
Ticket drawn_ticket() {
    Ticket ticket;
    ticket.horizon = drawing.between(0, BEYUNLAK_HORIZON_MAX);
    for (int64_t k = drawing.between(1, BEYUNLAK_EVENTS_MAX); k > 0; k--) ticket.owners.push_back(static_cast<int>(drawing.between(0, 4)));
    const int64_t low = -ticket.horizon / drawing.between(1, 40);
    for (int64_t k = drawing.between(0, BEYUNLAK_RULES_MAX); k > 0; k--) {
        const int from = static_cast<int>(drawing.between(0, ticket.events())), to = static_cast<int>(drawing.between(0, ticket.events()));
        if (from != to) ticket.rules.push_back({from, to, drawing.between(to == 0 || from == 0 ? 0 : low, ticket.horizon)});
    }
    return ticket;
}

// Events in their order, each at least 9 k + 1 ticks after the k-th before it, and the first of them late: since it is the last
// to be joined to the others, each of these is raised again and again, by ever longer ways, and the lift is given up. Two more
// events would have to come far after each other, so that a plan has to look for a schedule rule by rule.
Ticket given_up() {
    constexpr int chain = BEYUNLAK_EVENTS_MAX - 2;
    Ticket ticket;
    ticket.horizon = BEYUNLAK_HORIZON_MAX;
    for (int event = 0; event < BEYUNLAK_EVENTS_MAX; event++) ticket.owners.push_back(event % 5);
    for (int k = 1; k <= 5; k++) {
        for (int event = k + 2; event <= chain; event++) ticket.rules.push_back({event, event - k, -9 * k - 1});
    }
    ticket.rules.push_back({2, 1, -10});
    ticket.rules.push_back({1, 0, -1000});
    ticket.rules.push_back({chain + 1, chain + 2, -600000});
    ticket.rules.push_back({chain + 2, chain + 1, -600000});
    return ticket;
}

std::vector<Bytes> all_tickets() {
    std::vector<Bytes> tickets;
    std::vector<std::filesystem::path> files;
    for (const auto &entry : std::filesystem::directory_iterator("examples/tickets")) {
        if (entry.path().extension() == ".ticket") files.push_back(entry.path());
    }
    std::sort(files.begin(), files.end());
    for (const auto &file : files) {
        std::ifstream stream(file, std::ios::binary);
        tickets.push_back(Bytes(std::istreambuf_iterator<char>(stream), {}));
    }
    const auto add = [&](const Ticket &ticket, const std::vector<int64_t> &times) {
        tickets.push_back(ticket_bytes(ticket));
        tickets.push_back(ticket_bytes(closed_by_one(ticket)));
        tickets.push_back(ticket_bytes(closed_through_all(ticket, times)));
    };
    for (const std::string &structure : structures) {
        for (int seed = 1; seed <= tickets_each; seed++) {
            std::vector<int64_t> times;
            for (int events : {5, 10, 20, 40}) add(make_ticket(structure, events, usual_rules(structure, events), seed, &times), times);
            const Ticket full = full_ticket(structure, seed, &times);
            add(full, times);
            for (int device : {BEYUNLAK_CAMERA, BEYUNLAK_STAGE, BEYUNLAK_DATABASE}) add(of_one_device(full, device), times);
        }
    }
    for (int k = 0; k < drawn_tickets; k++) tickets.push_back(ticket_bytes(drawn_ticket()));
    tickets.push_back(ticket_bytes(given_up()));
    tickets.push_back(ticket_bytes(mirrored(given_up())));
    return tickets;
}

// The bytes as they are, cut, longer, and with a byte changed.
std::vector<Bytes> damaged(const Bytes &bytes) {
    std::vector<Bytes> all = {bytes, bytes, bytes, bytes, bytes};
    const auto place = [&](size_t count) { return static_cast<size_t>(drawing.between(0, static_cast<int64_t>(count) - 1)); };
    all[0].resize(place(bytes.size() + 1));
    all[1].push_back(0);
    if (bytes.empty()) return all;
    all[2][place(bytes.size())] ^= static_cast<uint8_t>(drawing.between(1, 255));
    all[3][place(std::min<size_t>(bytes.size(), 8))] = 0xff;
    all[4][bytes.size() - 1 - place(std::min<size_t>(bytes.size(), 6))] = 0xff;
    return all;
}

// ---- the calls on a ticket and on a record

void ask_others(const Bytes &ticket) {
    Bytes out(BEYUNLAK_REASON_MAX), dropped(BEYUNLAK_DROPPED_MAX);
    std::vector<int32_t> numbers(BEYUNLAK_TABLE_MAX);
    const uint32_t events = ticket.size() > 4 ? ticket[4] : 0;
    const Bytes labels = labels_of(static_cast<int>(std::min<uint32_t>(events, BEYUNLAK_EVENTS_MAX)));
    for (size_t missing : {0, 1}) {
        mend.call([&] { return beyunlak_mend(ticket.data(), ticket.size(), out.data(), out.size(), dropped.data(), dropped.size() - missing); });
        reason.call([&] {
            return beyunlak_reason(ticket.data(), ticket.size(), labels.data(), labels.size(), roster.data(), roster.size(), out.data(),
                                   out.size() - missing, &length);
        });
        for (uint32_t device = 0; device <= BEYUNLAK_DEVICES; device++) {
            part.call([&] { return beyunlak_part(ticket.data(), ticket.size(), device, out.data(), BEYUNLAK_PART_MAX - missing); });
        }
        for (uint32_t stops : {0u, events / 2, events + 1}) {
            table_after.call([&] { return beyunlak_table_after(ticket.data(), ticket.size(), stops, numbers.data(), numbers.size() - missing); });
        }
    }
    reason.call([&] {
        return beyunlak_reason(ticket.data(), ticket.size(), roster.data(), 1, roster.data(), roster.size(), out.data(), out.size(), &length);
    });
}

// The table of a ticket that can be read, and again with values out of range.
void ask_table(const Ticket &ticket) {
    std::vector<int32_t> numbers(BEYUNLAK_TABLE_MAX);
    std::vector<beyunlak_rule> rules;
    for (const Rule &rule : ticket.rules) {
        rules.push_back({static_cast<uint8_t>(rule.from), static_cast<uint8_t>(rule.to), static_cast<int32_t>(rule.bound)});
    }
    const uint32_t horizon = static_cast<uint32_t>(ticket.horizon), events = static_cast<uint32_t>(ticket.events());
    const auto ask = [&](uint32_t h, uint32_t n, size_t out_len) {
        table.call([&] { return beyunlak_table(h, n, rules.data(), rules.size(), numbers.data(), out_len); });
    };
    ask(horizon, events, numbers.size());
    ask(horizon, events, numbers.size() - 1);
    ask(BEYUNLAK_HORIZON_MAX + 1, events, numbers.size());
    ask(horizon, BEYUNLAK_EVENTS_MAX + 1, numbers.size());
    if (rules.empty()) return;
    const beyunlak_rule first = rules[0];
    rules[0].to = first.from;
    ask(horizon, events, numbers.size());
    rules[0] = {first.from, first.to, -BEYUNLAK_BOUND_MAX - 1};
    ask(horizon, events, numbers.size());
    rules.assign(BEYUNLAK_RULES_MAX + 1, first);
    ask(horizon, events, numbers.size());
}

// The views of a record by every device, and by none.
void ask_views(const Bytes &record) {
    Bytes out(BEYUNLAK_VIEW_MAX);
    for (uint32_t caller = 0; caller <= BEYUNLAK_DEVICES; caller++) {
        for (size_t missing : {0, 1}) view.call([&] { return beyunlak_view(record.data(), record.size(), caller, out.data(), out.size() - missing); });
    }
}

// Every event in turn commits to the middle third of its window, and once all have, again; before each the commitments that are
// refused with 20 and 13. On the first record also those of damaged records, of windows that are not fit, and at full counts;
// and the views of all these but the last.
void ask_commitments(const Ticket &ticket, Bytes record) {
    const Window anywhere = {0, ticket.horizon};
    const Windows wide(ticket.owners.size(), anywhere);
    const Bytes unfit = record_bytes(ticket, wide, std::vector<bool>(ticket.owners.size(), false));
    Bytes full = record;
    std::fill(full.end() - 10, full.end(), 0xff);
    for (const Bytes &bytes : damaged(record)) {
        committed(bytes, 1, 0, 0);
        ask_views(bytes);
    }
    committed(unfit, 1, 0, ticket.horizon);
    ask_views(unfit);
    ask_views(record);
    committed(record, 1, 0, 0, BEYUNLAK_RECORD_MAX - 1);
    for (int round = 0; round < 2; round++) {
        for (int event = 1; event <= ticket.events(); event++) {
            const Window window = record_windows(ticket, record)[event - 1];
            const int64_t third = (window.close - window.open) / 3;
            committed(record, round ? 0 : static_cast<uint32_t>(ticket.events()) + 1, window.open, window.close);
            committed(record, static_cast<uint32_t>(event), window.close + 1, window.open);
            if (round == 0 && event == 1) committed(full, 1, window.open, window.close);
            record = committed(record, static_cast<uint32_t>(event), window.open + third, window.close - third);
        }
    }
}

void print(const Function &function) {
    std::printf("| %-29s | %7zu | %6zu |", function.name, function.calls, function.most - nothing.most);
    for (uint32_t number : function.answers) std::printf(" %u", number);
    std::printf(" |\n");
}

}  // namespace

int main(int count, char **words) {
    for (int k = 1; k < count; k++) {
        if (!std::strcmp(words[k], "--short")) tickets_each = 1, drawn_tickets = 60;
    }
    stack = static_cast<uint8_t *>(mmap(nullptr, stack_bytes, PROT_READ | PROT_WRITE, MAP_PRIVATE | MAP_ANONYMOUS, -1, 0));
    if (stack == MAP_FAILED) return 1;
    nothing.call([] { return 0u; });
    const std::vector<Bytes> tickets = all_tickets();
    for (const Bytes &bytes : tickets) {
        const Bytes record = planned(false, bytes), latest = planned(true, bytes);
        planned(false, bytes, BEYUNLAK_RECORD_MAX - 1);
        planned(true, bytes, BEYUNLAK_RECORD_MAX - 1);
        for (const Bytes &wrong : damaged(bytes)) {
            planned(false, wrong);
            planned(true, wrong);
            ask_others(wrong);
        }
        ask_others(bytes);
        if (!record.empty()) {
            const Ticket ticket = ticket_of(bytes);
            ask_table(ticket);
            ask_table(closed_through_all(ticket, std::vector<int64_t>(ticket.owners.size() + 1, 0)));
            ask_commitments(ticket, record);
            ask_commitments(ticket, latest);
        }
    }
    std::printf("\nThe most bytes of stack, over %zu tickets; %s leaves %zu, which are taken off.\n\n", tickets.size(), nothing.name, nothing.most);
    std::printf("| function                      |   calls |  bytes | answers |\n|---|---|---|---|\n");
    for (const Function *function : {&plan, &plan_latest, &commit, &view, &plan_lent, &plan_latest_lent, &commit_lent, &table, &table_after, &reason, &mend, &part}) {
        print(*function);
    }
    return 0;
}
