// The colours of a script in the editor, by the words of share/qs.tmLanguage.json.
import CodeMirror from "codemirror";
import grammar from "../../share/qs.tmLanguage.json";

const STYLES: Record<string, string> = {
  "comment.line.number-sign.qs": "comment",
  "keyword.control.qs": "keyword",
  "storage.type.qs": "type",
  "support.function.qs": "builtin",
  "constant.numeric.qs": "number",
  "keyword.operator.qs": "operator",
};

const RULES = grammar.patterns.map(({ name, match }) => {
  return { style: STYLES[name] ?? null, match: new RegExp(match, "y") };
});

/** What stands at a place of a line, if a rule has it: its style and its length. */
function tokenAt(line: string, place: number): { style: string | null; length: number } | undefined {
  for (const { style, match } of RULES) {
    match.lastIndex = place;
    const length = match.exec(line)?.[0]?.length ?? 0;
    if (length > 0) return { style, length };
  }
  return undefined;
}

CodeMirror.defineMode("qs", () => ({
  token(stream) {
    const token = tokenAt(stream.string, stream.pos);
    if (token === undefined) {
      if (!stream.eatWhile(/[a-z0-9_]/)) stream.next();
      return null;
    }
    stream.pos += token.length;
    return token.style;
  },
  startState: () => ({}),
  lineComment: "#",
}));
