// The terms of the page, each explained once: beside its control, and in the glossary.

export interface Term {
  name: string;
  /** What it means, a paragraph on each line. The first sentence alone is shown where the mouse is on its control. */
  says: string;
}

export const TERMS: Record<string, Term> = {
  object: {
    name: "Object",
    says: "An account, a buffer or a grid, with a handler that runs the requests on it one after another.",
  },
  client: { name: "Client", says: "One who runs its blocks one after another, and has variables of its own." },
  block: {
    name: "Block",
    says:
      "A separate block: it reserves the objects of its list, and what it asks of them nobody else comes between. " +
      "The third block of ann is called ann 2, as they are counted from 0.",
  },
  request: {
    name: "Command and query",
    says:
      "The requests of a block. A command is sent, and the client goes on; a query is waited for, and has a reply. " +
      "An object refuses a command that it cannot do, and counts it.",
  },
  handler: {
    name: "Handler",
    says: "What runs the requests on its object, in the order in which blocks have reserved it.",
  },
  reservation: {
    name: "Reservation",
    says:
      "The step in which a block gets its place in the queues of all its objects at once. " +
      "Whose reservation is earlier is served first, at each of these objects; nobody waits in a circle.",
  },
  queue: {
    name: "Queue, front and tail",
    says:
      "What waits for a handler: it takes from the front, and what is new comes to the tail. " +
      "In a handler's queue are reservations; each client has a private queue (by the optimised machine a lane) " +
      "for its requests.",
  },
  journal: { name: "Journal", says: "All that an object has run so far, in that order, each with its block." },
  step: {
    name: "Step",
    says:
      "What a client or a handler does at once, such as to reserve, to send, or to run a request. " +
      "Each button is an actor; it says what its step would be, or what it waits for.",
  },
  machine: {
    name: "Machine",
    says:
      "The plain rules send each request alone, and each query is a synchronisation. " +
      "The optimised machine sends requests in chunks and leaves synchronisations out. Both come to the same ends.",
  },
  mode: {
    name: "Mode",
    says:
      "Which synchronisations the optimised machine leaves out.\n" +
      "None: it sends each.\n" +
      "Dynamic: while it runs, a client tests whether it holds the object already.\n" +
      "Static: before the run, those are removed where the text shows that the object is held on all ways there.\n" +
      "Both: those are removed, and the client tests at the others.",
  },
  synchronisation: {
    name: "Synchronisation",
    says:
      "The wait of a client for an object before a query, until the object has run all that was sent before. " +
      "The client then holds the object until it sends it a command, or the block ends.",
  },
  chunk: {
    name: "Chunk",
    says:
      "Commands that the optimised machine sends to a handler as one parcel: at most so many as this number. " +
      "Each lane has four chunks; a client whose chunks are all on their way waits for an empty one.",
  },
  order: {
    name: "Order",
    says:
      "The blocks in the order of their reservations. It decides all replies and all ends. " +
      "Written, it is a list of clients, each of which stands for its next block: @ann,@bob,@ann, or by numbers " +
      "c0,c1,c0.",
  },
  state: {
    name: "State between blocks",
    says:
      "How many blocks each client has done, its variables, and what the objects hold, where no block is open. " +
      "It is also called a configuration; the first one and each end are such states.",
  },
  end: {
    name: "End",
    says: "Variables and objects where all blocks are done. Several orders may come to the same end.",
  },
  condition: {
    name: "Condition and kinds of questions",
    says:
      "A condition compares sums of numbers, variables and queries, as in a.balance() + 5 >= ann.x, and joins these " +
      "by &&, || and !. It is asked of every end (always), of some end (some), of every state between blocks " +
      "(throughout), of some (ever) or of none (never).",
  },
  sum: {
    name: "Sum",
    says: "Numbers, variables and queries, added and subtracted, as in a.balance() + ann.x - 3: its value at each end.",
  },
  limit: {
    name: "Limit",
    says:
      "How many states between blocks a search may look at, one for a claim too. " +
      "Where there are more, it stops without an answer.",
  },
  claim: {
    name: "Claim",
    says:
      "A comment that begins with #? and has a kind and a condition, as #? always a.balance() >= 0. " +
      "It is answered beside its line.",
  },
  witness: {
    name: "Witness",
    says: "An order that shows why an answer is as it is. It can be played: then each of its steps can be looked at.",
  },
};

/** The first sentence of what a term means. */
export function firstOf({ says }: Term): string {
  return /^.*?[.](?=\s|$)/.exec(says)?.[0] ?? says;
}
