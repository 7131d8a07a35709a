"""Readers of JUnit's XML: each makes a reading of each report, or says what was wrong.

A reading has suites, each by name, four counts, milliseconds, host and time stamp; cases, each by suite, name, end,
type, text and milliseconds; counts and milliseconds of the whole; and hosts with time stamps. None is what a reader does
not tell.
"""

import base64
import glob
import os
import re
import shutil
import subprocess
import sys
import xml.etree.ElementTree as ElementTree
from dataclasses import dataclass
from html.entities import name2codepoint
from html.parser import HTMLParser

PACKAGES = ["libxml2-utils", "openjdk-*-jdk-headless", "python3-junitparser", "libsurefire-java", "ant-optional", "xsltproc"]
DEBIANS_PYTHON = "/usr/lib/python3/dist-packages"
JARS = [f"/usr/share/java/{name}.jar" for name in ("surefire-report-parser", "surefire-logger-api", "maven-shared-utils")]
JARS += glob.glob("/usr/share/java/maven-reporting-api-*.jar")
SHEETS = "/usr/share/ant/etc"
COUNTS = ("tests", "failures", "errors", "skipped")
# The ends of a case but the good one, and the pages of Ant that list them.
ENDS = {"failure": "alltests-fails", "error": "alltests-errors", "skipped": "alltests-skipped"}
PASSED = ("passed", "", "")
# The reader with which the others are compared.
BASE = "xml.etree"
# What a schema says of attributes that it is too old, or too narrow, to know.
KNOWN = re.compile(r"Element '(skipped', attribute '(message|type)|testsuite', attribute '(hostname|timestamp))'")
JAVA = """
import java.io.File; import java.nio.charset.StandardCharsets; import java.util.*;
import javax.xml.parsers.DocumentBuilderFactory; import org.w3c.dom.*;
%s
public class Reader {
    static void tell(Object... fields) {
        StringJoiner line = new StringJoiner(" ");
        for (Object it : fields)
            line.add(Base64.getEncoder().encodeToString(String.valueOf(it).getBytes(StandardCharsets.UTF_8)));
        System.out.println(line);
    }
    public static void main(String[] paths) throws Exception {
        for (String path : paths) { tell("report"); %s }
    }
}
"""
DOM = """
    NodeList suites = DocumentBuilderFactory.newInstance().newDocumentBuilder().parse(new File(path))
        .getDocumentElement().getElementsByTagName("testsuite");
    for (int at = 0; at < suites.getLength(); at++) {
        Element it = (Element) suites.item(at);
        tell("suite", it.getAttribute("name"), it.getAttribute("tests"), it.getAttribute("failures"),
            it.getAttribute("errors"), it.getAttribute("skipped"), it.getAttribute("time"),
            it.getAttribute("hostname"), it.getAttribute("timestamp"));
        NodeList cases = it.getElementsByTagName("testcase");
        for (int number = 0; number < cases.getLength(); number++) {
            Element one = (Element) cases.item(number), end = (Element) one.getFirstChild();
            tell("case", one.getAttribute("classname"), one.getAttribute("name"), end.getTagName(),
                end.getAttribute("type"), end.getAttribute("message"), one.getAttribute("time"));
        }
    }
"""
SUREFIRES = "import org.apache.maven.plugins.surefire.report.*; import org.apache.maven.plugin.surefire.log.api.*;"
SUREFIRE = """
    for (ReportTestSuite it : new SurefireReportParser(Collections.singletonList(new File(path).getParentFile()),
            Locale.ENGLISH, new NullConsoleLogger()).parseXMLReportFiles()) {
        tell("suite", it.getFullClassName(), it.getNumberOfTests(), it.getNumberOfFailures(),
            it.getNumberOfErrors(), it.getNumberOfSkipped(), it.getTimeElapsed(), "", "");
        for (ReportTestCase one : it.getTestCases())
            tell("case", one.getFullClassName(), one.getName(), one.hasFailure() ? "failure" : one.hasError()
                ? "error" : one.hasSkipped() ? "skipped" : "", one.getFailureType(), one.getFailureMessage(), one.getTime());
    }
"""


class Bad(Exception):
    """What is wrong with a report."""


@dataclass
class Reading:
    suites: list = None
    cases: list = None
    totals: tuple = None
    stamps: set = None


def each(read):
    """Reads many reports by what reads one."""

    def answer(path):
        try:
            return read(path)
        except (Bad, ElementTree.ParseError, ValueError, KeyError, IndexError, TypeError) as why:
            return Bad(f"{type(why).__name__} {why}")

    return lambda paths, folder: [answer(path) for path in paths]


def milliseconds(time):
    return round(1000 * float(time))


def heard(words, may_warn=False):
    """What a command prints, if it has no fault to tell of."""
    names = {**os.environ, "LC_ALL": "C.UTF-8"}
    done = subprocess.run(words, capture_output=True, encoding="utf-8", stdin=subprocess.DEVNULL, env=names)
    if done.returncode or (done.stderr and not may_warn):
        raise Bad(f"{words[0]}: {(done.stderr or done.stdout)[-500:]}")
    return done.stdout


def by_xmllint(path):
    heard(["xmllint", "--noout", path])
    return Reading()


def by_etree(path):
    suites, cases = [], []
    for suite in ElementTree.parse(path).getroot():
        counts = [int(suite.get(it)) for it in COUNTS]
        stamps = suite.get("hostname", ""), suite.get("timestamp", "")
        suites.append((suite.get("name"), *counts, milliseconds(suite.get("time")), *stamps))
        for case in suite:
            said = (case[0].tag, case[0].get("type"), case[0].get("message")) if case[0].tag in ENDS else PASSED
            cases.append((case.get("classname"), case.get("name"), *said, milliseconds(case.get("time"))))
    return Reading(suites, cases)


def by_junitparser(path):
    from junitparser import JUnitXml

    suites, cases, whole = [], [], JUnitXml.fromfile(path)
    for suite in whole:
        counts = [getattr(suite, it) for it in COUNTS]
        suites.append((suite.name, *counts, milliseconds(suite.time), suite.hostname or "", suite.timestamp or ""))
        for case in suite:
            said = [(end._tag, end.type, end.message) for end in case.result] or [PASSED]
            cases.append((case.classname, case.name, *said[0], milliseconds(case.time)))
    whole.update_statistics()
    return Reading(suites, cases, (*(getattr(whole, it) for it in COUNTS), None))


def by_java(paths, folder, body, imports=""):
    """What a program of Java tells of all reports, line by line, each field by base64."""
    source, readings = os.path.join(folder, "Reader.java"), []
    with open(source, "w") as file:
        file.write(JAVA % (imports, body))
    for line in heard(["java", "-cp", ":".join(JARS), source, *paths], may_warn=True).splitlines():
        what, *said = [base64.b64decode(field).decode() for field in line.split(" ")]
        if what == "report":
            readings.append(Reading([], []))
        elif what == "suite":
            readings[-1].suites.append((said[0], *map(int, said[1:5]), milliseconds(said[5]), *said[6:]))
        else:
            end = said[2:5] if said[2] in ENDS else PASSED
            readings[-1].cases.append((*said[:2], *end, milliseconds(said[5])))
    return readings


def cut(path):
    """The files of a report's suites, each a document of its own."""
    folder, paths = os.path.join(os.path.dirname(path), "suites"), []
    os.makedirs(folder, exist_ok=True)
    with open(path, newline="") as file:
        suites = re.findall(r"<testsuite .*?</testsuite>", file.read(), re.S)
    for number, suite in enumerate(suites):
        paths.append(os.path.join(folder, f"TEST-{number}.xml"))
        with open(paths[-1], "w", newline="") as file:
            file.write(f'<?xml version="1.0" encoding="UTF-8"?>\n{suite}\n')
    return paths


def by_schema(schema, path):
    with open(schema) as file:
        paths = [path] if 'element name="testsuites"' in file.read() else cut(path)
    for it in paths:
        done = subprocess.run(["xmllint", "--noout", "--schema", schema, it], capture_output=True, text=True)
        lines = [line for line in done.stderr.splitlines() if not KNOWN.search(line) and not line.startswith(f"{it} ")]
        if lines:
            raise Bad(" ".join(lines)[:500])
    return Reading()


class Page(HTMLParser):
    """The cells of each row of a page's tables; a heading is a row of one cell."""

    def __init__(self, text):
        super().__init__(convert_charrefs=False)
        self.rows, self.is_in = [[]], False
        self.feed(text)
        self.close()
        self.rows = [[" ".join(cell.split()) for cell in row] for row in self.rows]

    def handle_starttag(self, tag, attributes):
        if tag in ("tr", "h3"):
            self.rows.append([])
        if tag in ("td", "h3"):
            self.rows[-1].append("")
            self.is_in = True

    def handle_endtag(self, tag):
        self.is_in = self.is_in and tag not in ("td", "h3")

    def handle_data(self, text):
        if self.is_in:
            self.rows[-1][-1] += text

    def handle_charref(self, name):
        self.handle_data(chr(int(f"0{name}" if name[0] in "xX" else name, 0)))

    def handle_entityref(self, name):
        self.handle_data(chr(name2codepoint[name]))


def case_in(suite, name, end, text, time):
    """A case, as a row of one of Ant's pages tells it."""
    return suite, name, {"success": "passed"}.get(end.lower(), end.lower()), "", text, milliseconds(time)


def totals_in(page, texts):
    """What a page says of the whole; if there is a test, no page has what is no number."""
    row = [row for row in page.rows if len(row) == 6][0]
    if row[0] != "0" and any("NaN" in text for text in texts):
        raise Bad("NaN stands in a page")
    return (*map(int, row[:4]), milliseconds(row[5]))


def by_noframes(path):
    text = heard(["xsltproc", f"{SHEETS}/junit-noframes.xsl", path])
    page, suite, cases = Page(text), None, []
    for row in page.rows:
        suite = row[0].removeprefix("TestCase").strip() if len(row) == 1 else suite
        cases += [case_in(suite, *row)] if len(row) == 4 else []
    return Reading(None, cases, totals_in(page, [text]))


def in_frames(path):
    """What the pages tell that junitreport made of a report."""
    top = os.path.join(os.path.dirname(path), "pages")
    pages = {}
    for name in glob.glob("**/*.html", root_dir=top, recursive=True):
        with open(os.path.join(top, name), encoding="utf-8") as file:
            pages[name] = file.read()
    rows = {name: Page(pages[f"{name}.html"]).rows for name in ("all-tests", *ENDS.values())}
    cases = {name: [case_in(*row) for row in rows[name] if len(row) == 5] for name in rows}
    for end, name in ENDS.items():
        if cases[name] != [case for case in cases["all-tests"] if case[2] == end]:
            raise Bad(f"{name}.html has other cases than all-tests.html")
    overview = Page(pages["overview-summary.html"])
    stamps = {(row[7], row[6]) for row in overview.rows if len(row) == 8}
    return Reading(None, cases["all-tests"], totals_in(overview, pages.values()), stamps)


def by_junitreport(paths, folder):
    """One run of Ant, which reads a suite a file, makes the pages of all reports."""
    tasks, build = [], os.path.join(folder, "build.xml")
    for path in paths:
        cut(path)
        here = os.path.dirname(path)
        tasks.append(f'<junitreport todir="{here}"><fileset dir="{here}/suites"/>')
        tasks.append(f'<report format="frames" todir="{here}/pages"/></junitreport>')
    with open(build, "w") as file:
        file.write(f'<project default="all"><target name="all">{"".join(tasks)}</target></project>\n')
    heard(["ant", "-q", "-S", "-f", build], may_warn=True)
    return each(in_frames)(paths, folder)


def readers(schemas):
    """Each reader by its name, with what it needs."""
    sys.path.append(DEBIANS_PYTHON)
    found = {
        BASE: (each(by_etree), []),
        "xmllint": (each(by_xmllint), ["xmllint"]),
        "Java's DOM": (lambda paths, folder: by_java(paths, folder, DOM), ["javac"]),
        "junitparser": (each(by_junitparser), [f"{DEBIANS_PYTHON}/junitparser"]),
        "Surefire": (lambda paths, folder: by_java(paths, folder, SUREFIRE, SUREFIRES), ["javac", *JARS]),
        "junit-noframes.xsl": (each(by_noframes), ["xsltproc", f"{SHEETS}/junit-noframes.xsl"]),
        "junitreport": (by_junitreport, ["ant", f"{SHEETS}/junit-frames.xsl"]),
    }
    for schema in schemas:
        read = lambda path, schema=schema: by_schema(schema, path)
        found[os.path.basename(schema)] = (each(read), ["xmllint", schema])
    return found


def lacks(needs):
    """What is not there of it: a command or a file."""
    return [it for it in needs if not (os.path.exists(it) if "/" in it else shutil.which(it))]


def versions():
    words = ["dpkg-query", "-W", "-f", "${binary:Package} ${Version}\n", *PACKAGES]
    told = subprocess.run(words, capture_output=True, text=True).stdout if shutil.which(words[0]) else ""
    return ", ".join(line for line in sorted(told.splitlines()) if len(line.split()) == 2)
