package main

import (
	"regexp"
	"strconv"
)

type objectItem struct {
	name, kind string
	numbers    []int64
}

type clientItem struct {
	name   string
	blocks []int             // where each begins, at `separate`
	given  map[string]string // the object for each formal, if it is started with a template
}

// A script: its tokens, and what they say of objects and clients.
type script struct {
	tokens  []string
	closing map[int]int // the place of the `}` for that of each `{`
	objects []objectItem
	clients []clientItem
}

var tokenPattern = regexp.MustCompile(`#[^\n]*|[a-z][a-z0-9_]*|[0-9]+|[=!<>]=|[^\s]`)

func read(text []byte) *script {
	s := &script{closing: map[int]int{}}
	var open []int
	for _, token := range tokenPattern.FindAll(text, -1) {
		switch at := len(s.tokens); token[0] {
		case '#':
			continue
		case '{':
			open = append(open, at)
		case '}':
			s.closing[open[len(open)-1]] = at
			open = open[:len(open)-1]
		}
		s.tokens = append(s.tokens, string(token))
	}
	s.readItems()
	return s
}

func number(token string) int64 {
	n, err := strconv.ParseInt(token, 10, 64)
	if err != nil {
		panic(err)
	}
	return n
}

// The names up to the next `)`, and the place after it; of formals each name stands after its kind.
func (s *script) listed(at int) (names []string, after int) {
	for ; s.tokens[at] != ")"; at++ {
		if s.tokens[at] != "(" && s.tokens[at] != "," {
			names = append(names, s.tokens[at])
		}
	}
	return names, at + 1
}

func (s *script) blocks(at int) (all []int, after int) {
	for at++; s.tokens[at] != "}"; at = s.closing[at] + 1 {
		all = append(all, at)
		for s.tokens[at] != "{" {
			at++
		}
	}
	return all, at + 1
}

func (s *script) readItems() {
	formals, blocks := map[string][]string{}, map[string][]int{} // of templates
	for at := 0; at < len(s.tokens); {
		word, name := s.tokens[at], s.tokens[at+1]
		at += 2
		switch {
		case word == "object":
			it := objectItem{name, s.tokens[at], []int64{number(s.tokens[at+1])}}
			at += 2
			if it.kind == "grid" {
				it.numbers = append(it.numbers, number(s.tokens[at]))
				at++
			}
			s.objects = append(s.objects, it)
		case word == "template":
			formals[name], at = s.listed(at)
			blocks[name], at = s.blocks(at)
		case s.tokens[at] == "=":
			template := s.tokens[at+1]
			it := clientItem{name, blocks[template], map[string]string{}}
			var names []string
			names, at = s.listed(at + 2)
			for k := range names {
				it.given[formals[template][2*k+1]] = names[k]
			}
			s.clients = append(s.clients, it)
		default:
			it := clientItem{name: name}
			it.blocks, at = s.blocks(at)
			s.clients = append(s.clients, it)
		}
	}
}
