package main

import "strconv"

// A program: objects, and clients, each a function that runs its blocks one after another.
type Load struct {
	names   []string
	objects []Object
	clients []string
	run     []func(c *Client)
}

// numbered returns the names p0, p1, .. up to n of them.
func numbered(p string, n int) (v []string) {
	for i := 0; i < n; i++ {
		v = append(v, p+strconv.Itoa(i))
	}
	return
}

func accounts(n int, balance int64) (v []Object) {
	for i := 0; i < n; i++ {
		v = append(v, &Account{balance: balance})
	}
	return
}

func loads(name string) *Load {
	l := &Load{}
	switch name {
	case "commands":
		l.names, l.objects, l.clients = []string{"a"}, accounts(1, 0), []string{"c"}
		l.run = append(l.run, func(c *Client) {
			c.Block([]int{0}, func(b *Block) {
				for i := 0; i < 100000; i++ {
					b.Command(0, Deposit, Args{0})
				}
			})
		})
	case "blocks":
		l.names, l.objects, l.clients = numbered("a", 8), accounts(8, 0), numbered("c", 8)
		all := []int{0, 1, 2, 3, 4, 5, 6, 7}
		for range l.clients {
			l.run = append(l.run, func(c *Client) {
				for i := 0; i < 32; i++ {
					c.Block(all, func(b *Block) {
						for o := 0; o < 8; o++ {
							b.Command(o, Deposit, Args{1})
						}
						b.Query(0, Balance, Args{})
					})
				}
			})
		}
	case "queries":
		l.names, l.objects, l.clients = []string{"a"}, accounts(1, 0), []string{"c"}
		l.run = append(l.run, func(c *Client) {
			c.Block([]int{0}, func(b *Block) {
				for i := 0; i < 50000; i++ {
					b.Command(0, Deposit, Args{1})
					b.Query(0, Balance, Args{})
				}
			})
		})
	case "apart":
		l.names, l.objects, l.clients = numbered("a", 8), accounts(8, 0), numbered("c", 8)
		for k := range l.clients {
			k := k
			l.run = append(l.run, func(c *Client) {
				c.Block([]int{k}, func(b *Block) {
					for i := 0; i < 12000; i++ {
						b.Command(k, Deposit, Args{1})
					}
					b.Query(k, Balance, Args{})
				})
			})
		}
	case "buffers":
		l.names = append(numbered("b", 4), "g")
		for i := 0; i < 4; i++ {
			l.objects = append(l.objects, &Buffer{ring: make([]int64, 8)})
		}
		l.objects = append(l.objects, &Grid{rows: 8, cols: 8, cells: make([]int64, 64)})
		l.clients = append(numbered("p", 4), numbered("c", 4)...)
		for k := 0; k < 4; k++ {
			k := k
			l.run = append(l.run, func(c *Client) {
				c.Block([]int{k}, func(b *Block) {
					x := int64(0)
					for i := 0; i < 999; i++ {
						for j := 0; j < 6; j++ {
							b.Command(k, Put, Args{x})
							x++
						}
						if x > 500 {
							b.Command(k, Drop, Args{})
						}
						b.Query(k, Size, Args{})
					}
				})
			})
		}
		for k := 0; k < 4; k++ {
			k := k
			l.run = append(l.run, func(c *Client) {
				c.Block([]int{k}, func(b *Block) {
					s := 0
					for i := 0; i < 900; i++ {
						if v := b.Query(k, Take, Args{}); v > 3 {
							s++
						}
						b.Query(k, Front, Args{})
					}
				})
			})
		}
	case "grids":
		l.names, l.clients = numbered("g", 4), numbered("w", 4)
		for k := 0; k < 4; k++ {
			k := k
			l.objects = append(l.objects, &Grid{rows: 8, cols: 8, cells: make([]int64, 64)})
			l.run = append(l.run, func(c *Client) {
				c.Block([]int{k}, func(b *Block) {
					for i := 0; i < 99; i++ {
						for r := int64(0); r < 8; r++ {
							for col := int64(0); col < 8; col++ {
								b.Command(k, Add, Args{r, col, r})
							}
						}
						b.Query(k, Row, Args{3})
					}
				})
			})
		}
	case "pairs":
		l.names, l.objects, l.clients = numbered("o", 8), accounts(8, 5), numbered("k", 8)
		for k := 0; k < 8; k++ {
			step := k%7 + 1
			l.run = append(l.run, func(c *Client) {
				for i := 0; i < 32; i++ {
					o, p := i%8, (i+step)%8
					c.Block([]int{o, p}, func(b *Block) {
						b.Command(o, Deposit, Args{3})
						x := b.Query(o, Balance, Args{})
						b.Command(p, Withdraw, Args{x})
						b.Query(p, Refused, Args{})
					})
				}
			})
		}
	default:
		panic("load? commands blocks queries apart buffers grids pairs")
	}
	return l
}
