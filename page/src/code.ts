// What of a script decides what it does: all but its comments, and how it is laid out.

export function codeOf(script: string): string {
  return script.replace(/#.*/g, "").split(/\s+/).join(" ").trim();
}
