// Colours for cells of relview in the classic notebook. The words are those of docs/language.md; editors/check compares them.
define(["codemirror/lib/codemirror", "base/js/namespace"], function (CodeMirror, Jupyter) {
  "use strict";
  const keywords = new Set((
    "REL LET PRINT LIST COUNT TYPE DROP SNAP AT LOAD SAVE ALL ATOMIC COMMIT EXPLAIN " +
    "DECL PROD SUM BEG END RETURN WHILE DO OD IF THEN ELSE FI"
  ).split(" "));
  const bases = new Set((
    "L O I Ln1 On1 L1n O1n dom ran trans refl epsi point atom init next inj empty unival less hasse quot " +
    "syq eq incl ubd lbd least greatest sup inf"
  ).split(" "));
  const domains = /^(?:p-1|p-2|i-1|i-2)(?![A-Za-z0-9_])/;

  function token(stream) {
    if (stream.sol() && stream.match(/^\s*%.*/)) return "meta";
    if (stream.eatSpace()) return null;
    if (stream.match(/^#.*/)) return "comment";
    if (stream.match(/^"[^"]*"?/)) return "string";
    if (stream.match(domains)) return "builtin";
    if (stream.match(/^[0-9]+/)) return "number";
    const word = stream.match(/^[A-Za-z][A-Za-z0-9_]*/);
    if (word) {
      if (keywords.has(word[0])) return "keyword";
      if (bases.has(word[0])) return "builtin";
      return stream.match(/^\s*\(/, false) ? "def" : "variable";
    }
    return /[-|&*\\\/^=]/.test(stream.next()) ? "operator" : null;
  }

  CodeMirror.defineMode("relview", function () {
    return { token: token, lineComment: "#" };
  });
  CodeMirror.defineMIME("text/x-relview", "relview");

  // The notebook may have asked for the mode before it was there.
  function again() {
    Jupyter.notebook.set_codemirror_mode("null");
    Jupyter.notebook.set_codemirror_mode("relview");
  }

  return {
    onload: function () {
      again();
      Jupyter.notebook.events.on("kernel_ready.Kernel", again);
    }
  };
});
