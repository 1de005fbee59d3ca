// Reads the runs of a page into one report. There is one run, of one file or of several that were collected together; or each file is a
// run of its own, and then all that is read of a run knows its file. A page of very many such files has none of their runs.

/** The file that a fault line is of, and how it ended. */
function faultOf(line) {
  const start = line.indexOf('"');
  const end = endOfText(line, start);
  return { name: JSON.parse(line.slice(start, end)), end: line.slice(end).replace(/^: /, "") };
}

/** The files of a run in their order, each with how it ended, or null where it was read whole: then it has no fault line. */
function filesOfRun({ files, faults }) {
  const lines = faults.split("\n").slice(0, -1).map(faultOf);
  return files.map((name) => ({ name, end: lines[0]?.name === name ? lines.shift().end : null }));
}

/** The files of all runs in their order. */
function filesOf(runs) {
  return runs.flatMap(filesOfRun).map(({ name, end }, at) => ({ name, label: name, at, end }));
}

/** What was traced in all runs, one after another. */
function readRuns(runs) {
  const files = filesOf(runs);
  const report = { files, processes: [], threads: [], instants: [], counters: [], asyncs: [], flows: [], file: null, unit: MICROSECONDS };
  runs.forEach((run, at) => {
    report.file = run.files.length === 1 ? files[at] : null;
    if (report.file !== null) report.file.hasSpans = /^span /m.test(run.report);
    readReport(report, run.report);
  });
  return report;
}
