"""What bench/run measures by lines: the jobs, each with its settings and the lines of its log."""
import random
from typing import Callable, NamedTuple, Optional, Tuple

NGINX = (
    r'^(?P<remote_addr>[^ ]+) - (?P<remote_user>[^ ]+) \[(?P<time_local>[^\]]+)\] '
    r'"(?P<method>[A-Z]+) (?P<path>[^ ]+) [^"]+" (?P<status>[0-9]+) (?P<bytes>[0-9]+) '
    r'"(?P<referer>[^"]*)" "(?P<agent>[^"]*)"$'
)
POD_LOG = "pods/shop_web-7d4b9c6f8d-x2x7k_0a6f1c1e-52d3-4c9c-8a53-3f2f7d1b9e60/web/0.log"
HEADER = "time,host,level,service,path,status,bytes,agent"


class Job(NamedTuple):
    """A log, and settings by which it is taken."""

    name: str
    what: str
    # Makes a line, without its line feed, of a source of random numbers and the line's number.
    line: Callable[[random.Random, int], str]
    operators: list = []
    keys: dict = {}
    log: str = "app.log"
    # The job of floors.rs, where there is one.
    floor: Optional[str] = None
    # Instructions a line to aim at, or how many times those of another job.
    aim: Optional[int] = None
    times: Optional[Tuple[str, float]] = None
    # Whether it parses lines, which should take few allocations.
    parses: bool = False

    def settings(self):
        """The whole settings, as a value of JSON."""
        return {"include": [self.log], "start_at": "beginning", **self.keys, "operators": self.operators}

    def write(self, path, count, behind=()):
        """Makes a log of so many lines, with more behind them; they are the same each time."""
        numbers = random.Random(2026)
        with open(path, "w", encoding="utf-8", newline="") as log:
            for number in range(count):
                log.write(self.line(numbers, number) + "\n")
            for line in behind:
                log.write(line + "\n")


# ---- lines


def clock(number):
    """The time of day of a line, of which there are fifty a second."""
    second = number // 50
    return f"{8 + second // 3600:02}:{second // 60 % 60:02}:{second % 60:02}"


def day_time(numbers, number):
    return f"2026-11-27T{clock(number)}.{numbers.randrange(1000):03}Z"


def nano_time(numbers, number):
    return f"2026-11-27T{clock(number)}.{numbers.randrange(10**9):09}Z"


def path(numbers):
    return f"/api/v1/items/{numbers.randrange(977)}"


def said(numbers, number):
    """What a program says of a request."""
    return (
        f"INFO worker-{numbers.randrange(10)} handled request id={number} path={path(numbers)} status=200"
        f" bytes={numbers.randrange(9000)} ms={numbers.randrange(250)}"
    )


def plain(numbers, number):
    return f"{day_time(numbers, number)} {said(numbers, number)}"


def checked(numbers, number):
    """A tenth are health checks."""
    what = "GET /health" if numbers.randrange(10) == 0 else "GET " + path(numbers)
    return (
        f"{day_time(numbers, number)} INFO worker-{numbers.randrange(10)} handled {what} id={number} status=200"
        f" bytes={numbers.randrange(9000)} ms={numbers.randrange(250)}"
    )


def json_text(numbers, number):
    return (
        f'{{"time":"{day_time(numbers, number)}","level":"info","msg":"request {number} handled","path":"{path(numbers)}",'
        f'"status":200,"bytes":{numbers.randrange(9000)},"ms":{numbers.randrange(250)}}}'
    )


def access(numbers, number):
    return (
        f"192.0.2.{numbers.randrange(250)} - - [27/Nov/2026:{clock(number)} +0000]"
        f' "GET {path(numbers)} HTTP/1.1" {200 if numbers.randrange(20) else 502} {numbers.randrange(9000)}'
        f' "https://example.com/" "Mozilla/5.0 (X11; Linux x86_64)"'
    )


def syslog_5424(numbers, number):
    item = path(numbers)
    return (
        f"<{128 + numbers.randrange(8)}>1 2026-11-27T{clock(number)}.{numbers.randrange(10**6):06}Z"
        f" web-{numbers.randrange(10)} nginx {1000 + numbers.randrange(7)} ACCESS"
        f' [request@32473 id="{number}" path="{item}"]'
        f" GET {item} 200 {numbers.randrange(9000)} bytes {numbers.randrange(250)} ms"
    )


def syslog_3164(numbers, number):
    return (
        f"<{128 + numbers.randrange(8)}>Nov 27 {clock(number)} web-{numbers.randrange(10)}"
        f" nginx[{1000 + numbers.randrange(7)}]: GET {path(numbers)} 200 {numbers.randrange(9000)} bytes"
        f" {numbers.randrange(250)} ms"
    )


def csv_fields(numbers, number):
    return (
        f"2026-11-27T{clock(number)}Z,web-{numbers.randrange(100_000)},info,shop,{path(numbers)},200,"
        f"{numbers.randrange(9000)},"
    )


def csv(numbers, number):
    return csv_fields(numbers, number) + "Mozilla/5.0"


def csv_quoted(numbers, number):
    return csv_fields(numbers, number) + '"Mozilla, 5"'


def key_value(numbers, number):
    return (
        f"time=2026-11-27T{clock(number)}Z host=web-{numbers.randrange(10)} level=info service=shop path={path(numbers)}"
        f' status=200 bytes={numbers.randrange(9000)} agent="Mozilla 5"'
    )


def cri(numbers, number):
    stream = "stdout" if numbers.randrange(10) else "stderr"
    return f"{nano_time(numbers, number)} {stream} F {said(numbers, number)}"


def docker(numbers, number):
    stream = "stdout" if numbers.randrange(10) else "stderr"
    return f'{{"log":"{said(numbers, number)}\\n","stream":"{stream}","time":"{nano_time(numbers, number)}"}}'


def statement(numbers, number):
    """A line of a statement of ten lines, of which a semicolon ends the last."""
    end = ";" if number % 10 == 9 else ","
    return f"    select {number % 10} from items where id = {numbers.randrange(10**6):06} and path = '{path(numbers)}'{end}"


def sourced(sources):
    """The same with its source in front: that of each of so many sources in turn."""

    def line(numbers, number):
        return f"session-{number % sources:04} {statement(numbers, number // sources).strip()}"

    return line


def trace(numbers, number):
    """A line of a stack trace of thirty."""
    step = number % 30
    if step == 0:
        return (
            f"{day_time(numbers, number)} ERROR worker-{numbers.randrange(10)} request {number} failed:"
            " java.lang.IllegalStateException"
        )
    if step == 29:
        return "\tat com.example.Main.main(Main.java:17)"
    return f"\tat com.example.shop.orders.OrderService.step{step}(OrderService.java:{100 + numbers.randrange(900)})"


# ---- settings


def contains(text):
    return f'body contains "{text}"'


def conditions():
    """Ten operators that do nothing, of which one does so for each line."""
    return [{"type": "noop", "if": contains(f"worker-{worker} ")} for worker in range(10)]


def router():
    """Ten routes to an operator each, which adds what the route tells."""
    routes = [{"expr": contains(f"worker-{worker} "), "output": f"o{worker}"} for worker in range(10)]
    adds = [
        {"type": "add", "id": f"o{worker}", "field": "attributes.worker", "value": worker, "if": contains("INFO"), "output": "end"}
        for worker in range(10)
    ]
    return [{"type": "router", "routes": routes, "default": "end"}, *adds, {"type": "noop", "id": "end"}]


FIELDS = [
    {"type": "noop"},
    {"type": "move", "from": "body", "to": "attributes.message"},
    {"type": "copy", "from": "attributes.message", "to": "body"},
    {"type": "add", "field": "attributes.web", "value": {"tags": ["a", "b"], "port": 80}},
    {"type": "flatten", "field": "attributes.web"},
    {"type": "remove", "field": "attributes.message"},
    {"type": "move", "from": "attributes.port", "to": "resource.port"},
    {"type": "remove", "field": "attributes.none", "on_error": "send"},
    {"type": "retain", "fields": ["attributes.env", "attributes.tags", 'attributes["log.file.record_number"]']},
    {"type": "add", "field": "attributes.done", "value": True},
]
FIELDS_KEYS = {
    "include_file_path": True,
    "include_file_record_number": True,
    "attributes": {"env": "test"},
    "resource": {"host.name": "web-1"},
}
STAMPS = {
    "timestamp": {"parse_from": "attributes.time", "layout": "%Y-%m-%dT%H:%M:%S.%LZ"},
    "severity": {"parse_from": "attributes.level"},
}
JOINED = {"type": "recombine", "combine_field": "body", "is_last_entry": "body endsWith ';'"}
BY_SOURCE = [{"type": "regex_parser", "regex": "^(?P<source>[^ ]+)"}, {**JOINED, "source_identifier": "attributes.source"}]
TRACES = {"multiline": {"line_start_pattern": "^[0-9]{4}-[0-9]{2}-[0-9]{2}T"}}

JOBS = [
    Job("plain", "plain lines", plain, floor="plain"),
    Job(
        "plain-observed", "plain lines, with the time at which they were taken", plain, keys={"include_observed_time": True},
        floor="plain-observed", times=("plain", 1.1),
    ),
    Job("noops", "ten `noop`", plain, [{"type": "noop"}] * 10, floor="plain", aim=3_000),
    Job("conditions", "ten `noop`, each with a condition `body contains ..`", plain, conditions(), floor="plain"),
    Job("filter", "`filter` by a text", checked, [{"type": "filter", "expr": contains("GET /health")}], floor="filter", aim=3_000),
    Job("router", "a `router` with ten routes", plain, router(), floor="router"),
    Job("json", "`json_parser`, seven members", json_text, [{"type": "json_parser"}], floor="json", aim=13_000, parses=True),
    Job(
        "json-stamped", "the same with a time and a severity", json_text, [{"type": "json_parser", **STAMPS}],
        floor="json-stamped", aim=16_500, parses=True,
    ),
    Job(
        "nginx", "access lines of nginx by `regex_parser`, nine groups", access, [{"type": "regex_parser", "regex": NGINX}],
        floor="nginx", aim=16_000, parses=True,
    ),
    Job(
        "syslog-5424", "syslog, RFC 5424", syslog_5424, [{"type": "syslog_parser", "protocol": "rfc5424"}],
        floor="syslog-5424", aim=16_000, parses=True,
    ),
    Job(
        "syslog-3164", "syslog, RFC 3164", syslog_3164, [{"type": "syslog_parser", "protocol": "rfc3164", "year": 2026}],
        floor="syslog-3164", aim=9_500, parses=True,
    ),
    Job("csv", "`csv_parser`, eight fields", csv, [{"type": "csv_parser", "header": HEADER}], floor="csv", aim=10_500, parses=True),
    Job(
        "csv-quoted", "the same, one field in quotes", csv_quoted, [{"type": "csv_parser", "header": HEADER}],
        floor="csv", times=("csv", 1.1), parses=True,
    ),
    Job(
        "key-value", "`key_value_parser`, eight pairs", key_value, [{"type": "key_value_parser"}],
        floor="key-value", aim=13_500, parses=True,
    ),
    Job(
        "cri", "lines of containers, CRI", cri, [{"type": "container", "add_metadata_from_filepath": False}],
        floor="container", aim=6_500, parses=True,
    ),
    Job(
        "cri-pod", "the same with the pod's names", cri, [{"type": "container"}], {"include_file_path": True}, POD_LOG,
        floor="container-pod", aim=9_000, parses=True,
    ),
    Job("docker", "lines of containers, Docker", docker, [{"type": "container"}], floor="container", parses=True),
    Job("recombine", "`recombine`, ten lines to a group", statement, [JOINED], floor="recombine"),
    Job("recombine-1", "the same behind a `regex_parser` for the source, one source", sourced(1), BY_SOURCE, floor="recombine-sources"),
    Job(
        "recombine-1000", "the same, 1,000 sources open", sourced(1_000), BY_SOURCE,
        floor="recombine-sources", times=("recombine-1", 1.3),
    ),
    Job("multiline", "`multiline`, stack traces of 30 lines", trace, keys=TRACES, floor="multiline"),
    Job("fields", "ten operators that change fields", plain, FIELDS, FIELDS_KEYS),
    Job(
        "matches", "a condition with `matches`, access lines of nginx", access,
        [{"type": "noop", "if": r'body matches "\" 5\\d\\d "'}],
    ),
]

# Lines of all forms and of none. The floor of each job has to write what the agent does for them too.
ODD = [
    "",
    "  \t ",
    "\t tabs and spaces at both ends \t ",
    "a carriage return at its end\r",
    "one \r within, \x0b and \x0c",
    'a "text" with \\, \x07, \t and \x7f',
    "Grüße, 日本語, 🦀 and \u2028",
    "x" * 300 + '"' * 40 + "\\" * 7,
    "GET /healthy and GET /healt",
    "INFO worker-9 worker-3 worker-1x worker-",
    "worker-4 is told, and no level",
    # JSON
    "{}",
    "[1]",
    ' { "time" : "2026-11-27T08:00:00.5Z" , "level" : "Warning" , "most" : 9223372036854775807 , "more" : 9223372036854775808 }\t',
    '{"time":"2024-02-29T08:00:00.123456789Z","level":"FATAL4","least":-9223372036854775808,"less":-9223372036854775809}',
    '{"time":"2026-02-29T08:00:00.5Z","level":"info"}',
    '{"time":"2026-11-27T08:00:00.5Z","level":7}',
    '{"time":"2026-11-27T08:00:00.5Z","level":"odd"}',
    '{"time":"2026-11-27T08:00:00Z","level":"info"}',
    '{"a":{"b":[1,-0,1.5,-1e3,true,false,null,"x\\u00e9\\ud83e\\udd80\\ud800\\/",[],{}],"":{"z":1,"y":2}},"a ":[],"A":""}',
    '{"log.file.name":"other","zz":1,"zz":2,"long name of a member":1,"long name of another":2,"log.file.names":3}',
    '{"\\u0061":1,"\\"":2,"a":3}',
    '{"a":1,}',
    '{"a":01}',
    '{"a":"\\x"}',
    '{"a":"\t"}',
    '{"a":"b"} c',
    '{"a":' * 64 + "1" + "}" * 64,
    '{"a":' * 65 + "1" + "}" * 65,
    # access lines
    '- - - [-] "GET / HTTP/1.1" 200 0 "" ""',
    '::1 - ann b [27/Nov/2026:08:00:00 +0000] "GET / HTTP/1.1" 200 0 "-" "-"',
    '::1 - ann [27/Nov/2026:08:00:00 +0000] "get / HTTP/1.1" 200 0 "-" "-"',
    '::1 - ann [27/Nov/2026:08:00:00 +0000] "GET /a b HTTP/1.1" 200 0 "-" "\\x22"',
    '::1 - ann [27/Nov/2026:08:00:00 +0000] "GET / HTTP/1.1" 200 0 "-" "-" more',
    # syslog
    "<0>1 - - - - - -",
    "<191>1 2026-11-27T08:00:00.123456+05:30 h a p m"
    ' [b@1 x="1"][a@1 z="\\]\\"\\\\\\n" y="" z="2"][a@1 w="Grüße"][empty] \ufefftext "quoted"',
    "<192>1 - - - - - -",
    "<013>1 - h a p m - two  spaces",
    "<13>1 2026-11-27T08:00:00.1234567Z h a p m - too fine",
    "<13>1 2026-11-27T08:00:00Z h a p m [a x=1]",
    '<13>1 2026-11-27T08:00:00Z h a p m [a x="1"]without a space',
    "<13>2 - h a p m - another version",
    "<13>Nov  7 08:00:00 h su: text",
    "<13>Nov 07 08:00:00 h su[12]:text",
    "<13>Nov 27 08:00:00 h su[1]:",
    "<13>Nov 27 08:00:00 h su[]: no process",
    "<13>Nov 27 08:00:00 h su no colon",
    "<13>Feb 29 08:00:00 h su: no such day",
    "<13>nov 27 08:00:00 h su: no such month",
    # comma-separated values
    "a,b,c,d,e,f,g,h",
    "\ufeffa,b,c,d,e,f,g,h",
    ",,,,,,,",
    '"a""b",b"b,c,d,e,f,"g,g","h"h',
    'a,b,c,d,e,f,g,"h',
    'a,b,c,d,e,f,g,"h\ri"',
    "a,b,c,d,e,f,g\r,h",
    "a,b,c,d,e,f,g,h,i",
    # keys with values
    "a=1 b",
    "a=1 =2",
    "a= b=\"x y\" 'c d'=e=f",
    "log.file.name=other a='it\"s' a=\"\\\" level=info",
    'a="x',
    "''=1",
    # lines of containers
    "2026-11-27T08:00:00.1Z stdout P one ",
    "2026-11-27T08:00:00.2Z stderr P:more two ",
    "2026-11-27T08:00:00.3Z stdout F three",
    "2026-11-27T08:00:00.4Z stderr F",
    "2026-11-27T08:00:00.5+01:00 stderr F with a zone",
    "2026-11-27T08:00:00.1234567891Z stdout F too fine",
    "2026-11-27T08:00:00.6Z stdout X with no tag",
    "2026-11-27T08:00:00.7Z stdin F of no stream",
    '{"log":"a \\"b\\"\\n","stream":"any","time":"2026-11-27T08:00:00-02:00","attrs":{"x":[1]}}',
    '{"log":1,"stream":"stdout","time":"2026-11-27T08:00:00Z"}',
    # joined lines
    ";",
    "a;",
    "b c",
    "b d;",
    "2026-11-27T",
    "2026-11-27 and no T",
    "2026-11-27T the last one waits",
]
