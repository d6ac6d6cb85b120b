// A small runtime for scripts of separate blocks: runtime < SCRIPT writes the history of one run, in the form of the
// report of `qs run`.
//
// Each object has a thread, its handler, and so has each client. A handler has a queue of queues: a private queue for
// each block that has reserved it, in the order of reservations. It serves the first of them up to its end mark, and
// then the next. A block reserves all its objects in one step, under the locks of all their handlers.
//
// PAUSES=N in the environment: threads sleep for up to N microseconds now and then. BUG=NAME plants a bug:
//   lets_go       a handler turns to another private queue when its own is empty for a moment
//   one_by_one    a block reserves its objects one after another, with no lock over all
//   overtakes     a query goes before the commands that wait in its private queue
//   loses         a private queue with three requests loses a command that comes
//   stale         a query is answered from a copy of the object, made when its block began
//   swaps         a client begins its second block before its first, and so on
//   out_of_turn   a handler takes the last private queue that waits, not the first
//   wrong_client  all clients get their replies in one place

#include <algorithm>
#include <atomic>
#include <chrono>
#include <condition_variable>
#include <cstdint>
#include <cstdio>
#include <cstdlib>
#include <cstring>
#include <deque>
#include <iostream>
#include <iterator>
#include <map>
#include <memory>
#include <mutex>
#include <random>
#include <string>
#include <thread>
#include <vector>

using Text = std::string;
using Numbers = std::vector<int64_t>;

static const Text bug = getenv("BUG") ? getenv("BUG") : "";
static const int pauses = getenv("PAUSES") ? atoi(getenv("PAUSES")) : 0;

static void pause_now_and_then() {
    thread_local std::minstd_rand chance{std::random_device{}()};
    if (pauses > 0 && chance() % 2) std::this_thread::sleep_for(std::chrono::microseconds(chance() % pauses));
}

static int64_t clamp(__int128 exact) {
    return exact > INT64_MAX ? INT64_MAX : exact < INT64_MIN ? INT64_MIN : int64_t(exact);
}

template <class Values> static Text joined(const Values &values, const char *between) {
    Text all;
    for (int64_t value : values) all += (all.empty() ? "" : between) + std::to_string(value);
    return all;
}

// ---- a script: its tokens, and what they say of objects and clients

struct ObjectItem {
    Text name, kind;
    Numbers numbers;
};

struct ClientItem {
    Text name;
    std::vector<size_t> blocks;     // where each begins, at `separate`
    std::map<Text, Text> given = {}; // the object for each formal, if it is started with a template
};

struct Script {
    std::vector<Text> tokens;
    std::map<size_t, size_t> closing; // the place of the `}` for that of each `{`
    std::vector<ObjectItem> objects;
    std::vector<ClientItem> clients;

    explicit Script(const Text &text) {
        split(text);
        std::vector<size_t> open;
        for (size_t at = 0; at < tokens.size(); at++) {
            if (tokens[at] == "{") open.push_back(at);
            if (tokens[at] != "}") continue;
            closing[open.back()] = at;
            open.pop_back();
        }
        read_items();
    }

    void split(const Text &text) {
        auto is_letter = [](unsigned char c) { return islower(c) || isdigit(c) || c == '_'; };
        for (size_t at = 0, begin; (begin = at) < text.size();) {
            if (text[at] == '#') at = std::min(text.find('\n', at), text.size());
            else if (isdigit(text[at])) while (isdigit(text[at])) at++;
            else if (is_letter(text[at])) while (is_letter(text[at])) at++;
            else at += strchr("=!<>", text[at]) && text[at + 1] == '=' ? 2 : 1;
            if (text[begin] != '#' && !isspace(text[begin])) tokens.push_back(text.substr(begin, at - begin));
        }
    }

    // The names up to the next `)`; of formals each stands after its kind.
    std::vector<Text> listed(size_t &at) {
        std::vector<Text> names;
        for (; tokens[at] != ")"; at++) if (tokens[at] != "(" && tokens[at] != ",") names.push_back(tokens[at]);
        at++;
        return names;
    }

    std::vector<size_t> blocks(size_t &at) {
        std::vector<size_t> all;
        for (at++; tokens[at] != "}"; at = closing[at] + 1) {
            all.push_back(at);
            while (tokens[at] != "{") at++;
        }
        at++;
        return all;
    }

    void read_items() {
        std::map<Text, std::pair<std::vector<Text>, std::vector<size_t>>> templates;
        for (size_t at = 0; at < tokens.size();) {
            Text word = tokens[at++], name = tokens[at++];
            if (word == "object") {
                ObjectItem it{name, tokens[at++], {}};
                do it.numbers.push_back(std::stoll(tokens[at++])); while (at < tokens.size() && isdigit(tokens[at][0]));
                objects.push_back(it);
            } else if (word == "template") {
                auto formals = listed(at);
                templates[name] = {formals, blocks(at)};
            } else if (tokens[at] == "=") {
                auto &[formals, them] = templates[tokens[at + 1]];
                ClientItem it{name, them};
                auto names = listed(at += 2);
                for (size_t k = 0; k < names.size(); k++) it.given[formals[2 * k + 1]] = names[k];
                clients.push_back(it);
            } else {
                clients.push_back({name, blocks(at)});
            }
        }
    }
};

// ---- objects

struct Object {
    static constexpr int64_t most = 1'000'000'000'000'000;
    ObjectItem item;
    int64_t balance = 0, refused = 0;
    std::deque<int64_t> values; // of a buffer the first one first, of a grid row by row

    explicit Object(const ObjectItem &item) : item(item) {
        if (item.kind == "account") balance = item.numbers[0];
        if (item.kind == "grid") values.resize(item.numbers[0] * item.numbers[1]);
    }

    // Runs a request, and gives the reply if it is a query.
    int64_t perform(const Text &op, const Numbers &args) {
        if (op == "refused") return refused;
        if (item.kind == "account") return perform_account(op, args);
        return item.kind == "buffer" ? perform_buffer(op, args) : perform_grid(op, args);
    }

    int64_t perform_account(const Text &op, const Numbers &args) {
        if (op == "balance") return balance;
        int64_t n = args[0];
        if (n < 0 || n > (op == "deposit" ? most - balance : balance)) refused++;
        else balance += op == "deposit" ? n : -n;
        return 0;
    }

    int64_t perform_buffer(const Text &op, const Numbers &args) {
        if (op == "size") return values.size();
        if (op == "front") return values.empty() ? 0 : values.front();
        if (op == "put") {
            if (int64_t(values.size()) == item.numbers[0]) refused++;
            else values.push_back(args[0]);
            return 0;
        }
        if (values.empty()) {
            refused += op == "drop";
            return 0;
        }
        int64_t first = values.front();
        values.pop_front();
        return first;
    }

    int64_t perform_grid(const Text &op, const Numbers &args) {
        if (op == "fill") {
            std::fill(values.begin(), values.end(), args[0]);
            return 0;
        }
        int64_t rows = item.numbers[0], columns = item.numbers[1], r = args[0], c = op == "row" ? 0 : args[1];
        if (r < 0 || r >= rows || c < 0 || c >= columns) {
            refused += op == "set" || op == "add";
            return 0;
        }
        if (op == "row") {
            __int128 sum = 0;
            for (int64_t k = 0; k < columns; k++) sum += values[r * columns + k];
            return clamp(sum);
        }
        int64_t &cell = values[r * columns + c];
        if (op == "set") cell = args[2];
        if (op == "add") cell = clamp(__int128(cell) + args[2]);
        return cell;
    }

    Text shown() const {
        Text held = std::to_string(balance);
        if (item.kind != "account") held = joined(item.numbers, " ") + " [" + joined(values, " ") + "]";
        return item.name + " " + item.kind + " " + held + " refused " + std::to_string(refused);
    }
};

// ---- handlers

// Where a client waits for the reply of a query.
struct Mailbox {
    static std::atomic<int64_t> shared;
    std::mutex lock;
    std::condition_variable came;
    bool is_full = false;
    int64_t reply = 0;

    void put(int64_t value) {
        std::lock_guard<std::mutex> hold(lock);
        reply = shared = value;
        is_full = true;
        came.notify_one();
    }

    int64_t take() {
        std::unique_lock<std::mutex> hold(lock);
        came.wait(hold, [&] { return is_full; });
        is_full = false;
        if (bug != "wrong_client") return reply;
        pause_now_and_then();
        return shared;
    }
};

std::atomic<int64_t> Mailbox::shared{0};

struct Request {
    Text op; // nothing for the end mark
    Numbers args;
    Mailbox *to = nullptr; // of a query
};

using Private = std::deque<Request>;

class Handler {
    Object seen; // a copy from the beginning of the block, for the bug
    std::condition_variable work;
    std::deque<std::shared_ptr<Private>> queues;
    bool is_serving = false, is_closed = false;

    // Has the private queue to be served come first; only a bug has to move one.
    void choose() {
        auto found = queues.end();
        if (bug == "out_of_turn" && !is_serving && !queues.empty()) found = queues.end() - 1;
        if (bug == "lets_go") found = std::find_if(queues.begin(), queues.end(), [](auto &it) { return !it->empty(); });
        if (found != queues.end()) std::rotate(queues.begin(), found, found + 1);
    }

    void run(const Request &it) {
        int64_t reply = object.perform(it.op, it.args);
        if (bug == "stale" && it.to) reply = seen.perform(it.op, it.args);
        if (it.to) it.to->put(reply);
    }

public:
    std::mutex lock; // of the queue of queues and of the private queues in it
    Object object;

    explicit Handler(const ObjectItem &item) : seen(item), object(item) {}

    // Under the lock.
    void reserve(const std::shared_ptr<Private> &queue) {
        queues.push_back(queue);
        work.notify_one();
    }

    void send(Private &queue, const Request &it) {
        std::lock_guard<std::mutex> hold(lock);
        if (bug == "loses" && !it.op.empty() && !it.to && queue.size() >= 3) return;
        if (bug == "overtakes" && it.to) queue.push_front(it);
        else queue.push_back(it);
        work.notify_one();
    }

    void close() {
        std::lock_guard<std::mutex> hold(lock);
        is_closed = true;
        work.notify_one();
    }

    void serve() {
        std::unique_lock<std::mutex> hold(lock);
        while (true) {
            work.wait(hold, [&] { return choose(), queues.empty() ? is_closed : !queues.front()->empty(); });
            if (queues.empty()) return;
            if (!is_serving && bug == "stale") seen = object;
            Request it = queues.front()->front();
            queues.front()->pop_front();
            is_serving = !it.op.empty();
            if (is_serving) {
                hold.unlock();
                pause_now_and_then();
                run(it);
                hold.lock();
            } else {
                queues.pop_front();
            }
        }
    }
};

// ---- clients

struct Ticket {
    Text client;
    size_t block;
    std::vector<Text> trace;
};

// The order of reservations.
struct Order {
    std::mutex lock;
    std::vector<std::shared_ptr<Ticket>> tickets;

    void add(const std::shared_ptr<Ticket> &ticket) {
        std::lock_guard<std::mutex> hold(lock);
        tickets.push_back(ticket);
    }
};

class Client {
    const Script &script;
    const ClientItem &item;
    std::map<Text, Handler *> handlers; // by the names that the client's text has for them
    Order &order;
    std::map<Text, int64_t> variables;
    std::map<Handler *, std::shared_ptr<Private>> reserved;
    std::shared_ptr<Ticket> ticket;
    Mailbox replies;

    void reserve() {
        std::vector<std::unique_lock<std::mutex>> holds;
        // the order of a map is the same for all clients, so no two wait for each other
        for (auto &it : reserved) if (bug != "one_by_one") holds.emplace_back(it.first->lock);
        order.add(ticket);
        for (auto &[handler, queue] : reserved) {
            std::unique_lock<std::mutex> hold;
            if (bug == "one_by_one") {
                pause_now_and_then();
                hold = std::unique_lock<std::mutex>(handler->lock);
            }
            handler->reserve(queue);
        }
    }

    // These begin at a place among the tokens, and move it past what they read.

    int64_t value(size_t &at) {
        bool is_negative = script.tokens[at] == "-";
        const Text &it = script.tokens[at += is_negative];
        at++;
        return isdigit(it[0]) ? (is_negative ? -std::stoll(it) : std::stoll(it)) : variables[it];
    }

    int64_t request(size_t &at, bool is_query) {
        Handler *handler = handlers[script.tokens[at]];
        Text op = script.tokens[at + 2];
        Numbers args;
        for (at += 4; script.tokens[at] != ")"; at += script.tokens[at] == ",") args.push_back(value(at));
        at += 2;
        Text event = handler->object.item.name + "." + op + "(" + joined(args, ",") + ")";
        int64_t reply = 0;
        handler->send(*reserved[handler], {op, args, is_query ? &replies : nullptr});
        if (is_query) event += " = " + std::to_string(reply = replies.take());
        ticket->trace.push_back(event);
        pause_now_and_then();
        return reply;
    }

    void assign(size_t &at) {
        const Text &variable = script.tokens[at];
        at += 2;
        if (script.tokens[at + 1] == ".") {
            variables[variable] = request(at, true);
            return;
        }
        __int128 left = value(at);
        const Text &sign = script.tokens[at++];
        if (sign == ";") {
            variables[variable] = int64_t(left);
            return;
        }
        __int128 right = value(at);
        variables[variable] = clamp(sign == "*" ? left * right : sign == "-" ? left - right : left + right);
        at++;
    }

    bool holds(size_t &at) {
        int64_t left = value(at);
        const Text &relation = script.tokens[at++];
        int64_t right = value(at);
        if (relation == "==" || relation == "!=") return (left == right) == (relation == "==");
        if (relation == "<" || relation == ">=") return (left < right) == (relation == "<");
        return (left > right) == (relation == ">");
    }

    // Runs the statements in braces, and says whether a `leave` has ended them.
    bool leaves(size_t at) {
        for (at++; script.tokens[at] != "}";) {
            if (script.tokens[at] == "leave") return true;
            if (script.tokens[at] == "repeat") {
                int64_t turns = std::stoll(script.tokens[at + 1]);
                for (at += 2; turns > 0 && !leaves(at);) turns--;
                at = script.closing.at(at) + 1;
            } else if (script.tokens[at] == "if") {
                bool is_first = holds(++at);
                if (is_first && leaves(at)) return true;
                at = script.closing.at(at) + 1;
                if (script.tokens[at] != "else") continue;
                if (!is_first && leaves(at + 1)) return true;
                at = script.closing.at(at + 1) + 1;
            } else if (script.tokens[at + 1] == ".") {
                request(at, false);
            } else {
                assign(at);
            }
        }
        return false;
    }

    void run_block(size_t number) {
        size_t at = item.blocks[number] + 1;
        for (; script.tokens[at] != "{"; at++) reserved[handlers[script.tokens[at]]] = std::make_shared<Private>();
        ticket = std::make_shared<Ticket>(Ticket{item.name, number, {}});
        pause_now_and_then();
        reserve();
        pause_now_and_then();
        leaves(at);
        for (auto &[handler, queue] : reserved) handler->send(*queue, {});
        reserved.clear();
    }

public:
    Client(const Script &script, const ClientItem &item, const std::map<Text, Handler *> &all, Order &order)
        : script(script), item(item), handlers(all), order(order) {
        for (auto &[formal, name] : item.given) handlers[formal] = all.at(name);
    }

    void run() {
        size_t many = item.blocks.size();
        for (size_t k = 0; k < many; k++) run_block(bug == "swaps" && (k ^ 1) < many ? k ^ 1 : k);
    }
};

// ---- a run

static void show(const Order &order, const std::deque<Handler> &handlers) {
    std::cout << "order " << order.tickets.size() << "\n";
    for (auto &ticket : order.tickets) {
        std::cout << "ticket " << ticket->client << " " << ticket->block << " done\n";
        for (const Text &event : ticket->trace) std::cout << event << "\n";
    }
    std::cout << "states\n";
    for (const Handler &it : handlers) std::cout << it.object.shown() << "\n";
    std::cout << "finished\n";
}

int main() {
    Script script(Text(std::istreambuf_iterator<char>(std::cin), {}));
    std::deque<Handler> handlers;
    std::deque<Client> clients;
    std::map<Text, Handler *> named;
    Order order;
    for (auto &it : script.objects) named[it.name] = &handlers.emplace_back(it);
    for (auto &it : script.clients) clients.emplace_back(script, it, named, order);
    std::vector<std::thread> serving, running;
    for (auto &it : handlers) serving.emplace_back([&] { it.serve(); });
    for (auto &it : clients) running.emplace_back([&] { it.run(); });
    for (auto &it : running) it.join();
    for (auto &it : handlers) it.close();
    for (auto &it : serving) it.join();
    show(order, handlers);
}
