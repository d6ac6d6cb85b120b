// A small runtime for scripts of separate blocks: runtime < SCRIPT writes the history of one run, in the form of the
// report of `qs run`.
//
// Each object has a goroutine, its handler, and so has each client. A handler has a queue of queues, which is a channel
// of channels: a private queue for each block that has reserved it, in the order of reservations. It serves the first
// of them up to its end mark, and then the next. A block reserves all its objects in one step, under the desk's lock.
//
// PAUSES=N in the environment: goroutines sleep for up to N microseconds now and then. BUG=NAME plants a bug:
//
//	lets_go       a handler turns to another private queue when its own is empty for a moment
//	one_by_one    a block reserves its objects one after another, with no lock over all
//	overtakes     a query goes before the commands that wait in its private queue
//	loses         a private queue with three requests loses a command that comes
//	stale         a query is answered from a copy of the object, made when its block began
//	swaps         a client begins its second block before its first, and so on
//	out_of_turn   a handler takes the second private queue that waits, not the first
//	wrong_client  all clients get their replies in one place
package main

import (
	"bufio"
	"fmt"
	"io"
	"math/rand"
	"os"
	"strconv"
	"sync"
	"sync/atomic"
	"time"
)

// How many requests a private queue holds: a client that has sent so many waits, by which nobody can be stuck, since
// the first block in the order is served at each of its handlers.
const room = 64

// Eight clients of 64 blocks each, by which a queue of queues always has room.
const mostBlocks = 8 * 64

var (
	bug         = os.Getenv("BUG")
	pauses, _   = strconv.Atoi(os.Getenv("PAUSES"))
	sharedReply int64
)

func pauseNowAndThen() {
	if pauses > 0 && rand.Intn(2) == 0 {
		time.Sleep(time.Duration(rand.Intn(pauses)) * time.Microsecond)
	}
}

// A request; the end mark has no operation, and a command no place for the reply.
type request struct {
	op    string
	args  []int64
	reply chan int64
}

// A private queue. Only a bug has a second way, past the commands.
type private struct{ requests, past chan request }

func (q *private) send(it request) {
	switch {
	case bug == "loses" && it.op != "" && it.reply == nil && len(q.requests) >= 3:
	case bug == "overtakes" && it.reply != nil:
		q.past <- it
	default:
		q.requests <- it
	}
}

func (q *private) next() request {
	select {
	case it := <-q.past:
		return it
	default:
	}
	select {
	case it := <-q.past:
		return it
	case it := <-q.requests:
		return it
	}
}

type handler struct {
	object object
	queues chan *private // the queue of queues
}

func (h *handler) serve(open *sync.WaitGroup) {
	for queue := range h.queues {
		if bug == "out_of_turn" && len(h.queues) > 0 {
			h.queues <- queue
			queue = <-h.queues
		}
		if h.serveOne(queue) {
			open.Done()
		} else {
			h.queues <- queue
		}
	}
}

// Serves a private queue up to its end mark, and says whether that came; only by a bug it has not.
func (h *handler) serveOne(queue *private) bool {
	seen := h.object.copied()
	for bug != "lets_go" || len(queue.requests) > 0 || len(h.queues) == 0 {
		it := queue.next()
		if it.op == "" {
			return true
		}
		pauseNowAndThen()
		reply := h.object.perform(it.op, it.args)
		if it.reply != nil {
			if bug == "stale" {
				reply = seen.perform(it.op, it.args)
			}
			atomic.StoreInt64(&sharedReply, reply)
			it.reply <- reply
		}
	}
	return false
}

type ticket struct {
	client string
	block  int
	trace  []string
}

// The desk: who reserves has its lock, and the place in the order.
type desk struct {
	lock  sync.Mutex
	order []*ticket
	open  sync.WaitGroup // the private queues that have not been served up to their ends
}

func (d *desk) reserve(t *ticket, reserved map[*handler]*private) {
	d.lock.Lock()
	defer d.lock.Unlock()
	d.order = append(d.order, t)
	d.open.Add(len(reserved))
	for h, queue := range reserved {
		if bug == "one_by_one" {
			d.lock.Unlock()
			pauseNowAndThen()
			d.lock.Lock()
		}
		h.queues <- queue
	}
}

type client struct {
	clientItem
	script    *script
	handlers  map[string]*handler // by the names that the client's text has for them
	desk      *desk
	variables map[string]int64
	replies   chan int64
	ticket    *ticket
	reserved  map[*handler]*private
	at        int // the place among the tokens
}

func (c *client) token() string {
	return c.script.tokens[c.at]
}

func (c *client) take() string {
	c.at++
	return c.script.tokens[c.at-1]
}

func (c *client) value() int64 {
	it := c.take()
	if it == "-" {
		return -number(c.take())
	}
	if it[0] >= '0' && it[0] <= '9' {
		return number(it)
	}
	return c.variables[it]
}

func (c *client) holds() bool {
	left, relation, right := c.value(), c.take(), c.value()
	return map[string]bool{"==": left == right, "!=": left != right, "<": left < right, "<=": left <= right,
		">": left > right, ">=": left >= right}[relation]
}

func (c *client) request(isQuery bool) (reply int64) {
	h := c.handlers[c.token()]
	sent := request{op: c.script.tokens[c.at+2]}
	for c.at += 4; c.token() != ")"; {
		sent.args = append(sent.args, c.value())
		if c.token() == "," {
			c.at++
		}
	}
	c.at += 2
	event := fmt.Sprintf("%s.%s(%s)", h.object.name, sent.op, joined(sent.args, ","))
	if isQuery {
		sent.reply = c.replies
	}
	c.reserved[h].send(sent)
	if isQuery {
		reply = c.answer()
		event += fmt.Sprintf(" = %d", reply)
	}
	c.ticket.trace = append(c.ticket.trace, event)
	pauseNowAndThen()
	return reply
}

func (c *client) answer() int64 {
	reply := <-c.replies
	if bug == "wrong_client" {
		pauseNowAndThen()
		return atomic.LoadInt64(&sharedReply)
	}
	return reply
}

func (c *client) assign() {
	variable := c.take()
	c.at++
	if c.script.tokens[c.at+1] == "." {
		c.variables[variable] = c.request(true)
		return
	}
	value := c.value()
	if sign := c.take(); sign != ";" {
		value = calculate(value, sign, c.value())
		c.at++
	}
	c.variables[variable] = value
}

// Runs the statements in braces, goes on behind them, and says whether a `leave` has ended them.
func (c *client) leaves() bool {
	end := c.script.closing[c.at]
	for c.at++; c.at < end; {
		switch {
		case c.token() == "leave":
			return true
		case c.token() == "repeat":
			turns, body := number(c.script.tokens[c.at+1]), c.at+2
			for c.at = body; turns > 0 && !c.leaves(); turns-- {
				c.at = body
			}
			c.at = c.script.closing[body] + 1
		case c.token() == "if":
			if c.leavesOneOfTwo() {
				return true
			}
		case c.script.tokens[c.at+1] == ".":
			c.request(false)
		default:
			c.assign()
		}
	}
	c.at = end + 1
	return false
}

func (c *client) leavesOneOfTwo() bool {
	c.at++
	holds := c.holds()
	if holds && c.leaves() {
		return true
	} else if !holds {
		c.at = c.script.closing[c.at] + 1
	}
	if c.token() == "else" {
		c.at++
		if !holds {
			return c.leaves()
		}
		c.at = c.script.closing[c.at] + 1
	}
	return false
}

func (c *client) runBlock(number int) {
	c.ticket = &ticket{client: c.name, block: number}
	c.reserved = map[*handler]*private{}
	for c.at = c.blocks[number] + 1; c.token() != "{"; {
		c.reserved[c.handlers[c.take()]] = &private{make(chan request, room), make(chan request, 1)}
	}
	pauseNowAndThen()
	c.desk.reserve(c.ticket, c.reserved)
	pauseNowAndThen()
	c.leaves()
	for _, queue := range c.reserved {
		queue.send(request{})
	}
}

func (c *client) run(done *sync.WaitGroup) {
	defer done.Done()
	for k := range c.blocks {
		if other := k ^ 1; bug == "swaps" && other < len(c.blocks) {
			k = other
		}
		c.runBlock(k)
	}
}

// Makes a client.
func newClient(s *script, item clientItem, named map[string]*handler, d *desk) *client {
	c := &client{clientItem: item, script: s, desk: d, handlers: map[string]*handler{}, variables: map[string]int64{}}
	c.replies = make(chan int64, 1)
	for name, h := range named {
		c.handlers[name] = h
	}
	for formal, name := range item.given {
		c.handlers[formal] = named[name]
	}
	return c
}

func show(d *desk, handlers []*handler) {
	out := bufio.NewWriter(os.Stdout)
	defer out.Flush()
	fmt.Fprintln(out, "order", len(d.order))
	for _, t := range d.order {
		fmt.Fprintln(out, "ticket", t.client, t.block, "done")
		for _, event := range t.trace {
			fmt.Fprintln(out, event)
		}
	}
	fmt.Fprintln(out, "states")
	for _, h := range handlers {
		fmt.Fprintln(out, h.object.String())
	}
	fmt.Fprintln(out, "finished")
}

func main() {
	rand.Seed(time.Now().UnixNano())
	text, _ := io.ReadAll(os.Stdin)
	s, d, named := read(text), &desk{}, map[string]*handler{}
	var handlers []*handler
	for _, item := range s.objects {
		h := &handler{newObject(item), make(chan *private, mostBlocks)}
		handlers, named[item.name] = append(handlers, h), h
		go h.serve(&d.open)
	}
	var running sync.WaitGroup
	running.Add(len(s.clients))
	for _, item := range s.clients {
		go newClient(s, item, named, d).run(&running)
	}
	running.Wait()
	d.open.Wait()
	show(d, handlers)
}
