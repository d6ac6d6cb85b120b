package main

import (
	"fmt"
	"math"
	"math/big"
	"strings"
)

const mostMoney = 1_000_000_000_000_000

// An object of one of the three kinds: values are a buffer's, the first one first, or a grid's, row by row.
type object struct {
	objectItem
	balance, refused int64
	values           []int64
}

func newObject(item objectItem) object {
	it := object{objectItem: item}
	switch item.kind {
	case "account":
		it.balance = item.numbers[0]
	case "grid":
		it.values = make([]int64, item.numbers[0]*item.numbers[1])
	}
	return it
}

func (o *object) copied() object {
	it := *o
	it.values = append([]int64(nil), o.values...)
	return it
}

func clamp(exact *big.Int) int64 {
	if exact.IsInt64() {
		return exact.Int64()
	}
	if exact.Sign() < 0 {
		return math.MinInt64
	}
	return math.MaxInt64
}

// Sums, differences and products are exact, and then clamped.
func calculate(left int64, sign string, right int64) int64 {
	l, r, exact := big.NewInt(left), big.NewInt(right), new(big.Int)
	switch sign {
	case "+":
		exact.Add(l, r)
	case "-":
		exact.Sub(l, r)
	case "*":
		exact.Mul(l, r)
	}
	return clamp(exact)
}

func (o *object) refuseUnless(ok bool) bool {
	if !ok {
		o.refused++
	}
	return ok
}

// Runs a request, and gives the reply if it is a query.
func (o *object) perform(op string, args []int64) int64 {
	if op == "refused" {
		return o.refused
	}
	switch o.kind {
	case "account":
		return o.performAccount(op, args)
	case "buffer":
		return o.performBuffer(op, args)
	default:
		return o.performGrid(op, args)
	}
}

func (o *object) performAccount(op string, args []int64) int64 {
	switch op {
	case "deposit":
		if o.refuseUnless(args[0] >= 0 && args[0] <= mostMoney-o.balance) {
			o.balance += args[0]
		}
	case "withdraw":
		if o.refuseUnless(args[0] >= 0 && args[0] <= o.balance) {
			o.balance -= args[0]
		}
	}
	return o.balance
}

func (o *object) performBuffer(op string, args []int64) int64 {
	var first int64
	if len(o.values) > 0 {
		first = o.values[0]
	}
	switch op {
	case "size":
		return int64(len(o.values))
	case "put":
		if o.refuseUnless(int64(len(o.values)) < o.numbers[0]) {
			o.values = append(o.values, args[0])
		}
	case "drop", "take":
		if len(o.values) > 0 {
			o.values = o.values[1:]
		} else if op == "drop" {
			o.refused++
		}
	}
	return first
}

func (o *object) performGrid(op string, args []int64) int64 {
	if op == "fill" {
		for k := range o.values {
			o.values[k] = args[0]
		}
		return 0
	}
	rows, columns, r, c := o.numbers[0], o.numbers[1], args[0], int64(0)
	if op != "row" {
		c = args[1]
	}
	isInside := r >= 0 && r < rows && c >= 0 && c < columns
	switch {
	case op == "set" && o.refuseUnless(isInside):
		o.values[r*columns+c] = args[2]
	case op == "add" && o.refuseUnless(isInside):
		o.values[r*columns+c] = calculate(o.values[r*columns+c], "+", args[2])
	case op == "get" && isInside:
		return o.values[r*columns+c]
	case op == "row" && isInside:
		sum := new(big.Int)
		for _, value := range o.values[r*columns : (r+1)*columns] {
			sum.Add(sum, big.NewInt(value))
		}
		return clamp(sum)
	}
	return 0
}

func joined(values []int64, between string) string {
	return strings.ReplaceAll(strings.Trim(fmt.Sprint(values), "[]"), " ", between)
}

func (o *object) String() string {
	held := fmt.Sprint(o.balance)
	if o.kind != "account" {
		held = fmt.Sprintf("%s [%s]", joined(o.numbers, " "), joined(o.values, " "))
	}
	return fmt.Sprintf("%s %s %s refused %d", o.name, o.kind, held, o.refused)
}
