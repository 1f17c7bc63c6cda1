"""Rows of `tests/packaged`: what the dashboard of packaging/prometheus shows and its alerts watch, with reasons."""

# Which gateways a panel shows: those that were chosen.
CHOSEN = 'job="$job",instance=~"$instance"'
# The time over which a rate is taken, which follows the range that is shown and the time between two scrapes.
OVER = "[$__rate_interval]"
# The parts of a histogram that a panel shows, by their legends: the usual case, one in twenty, and one in a hundred.
PERCENTILES = ((0.5, "half within"), (0.95, "95 % within"), (0.99, "99 % within"))


def rate(legend: str, labels: str, family: str) -> tuple[str, str]:
    """A line for each value of labels: a counter a second, of all gateways that were chosen."""
    return legend, f"sum {'by (' + labels + ') ' if labels else ''}(rate({family}{{}}{OVER}))"


def times(family: str) -> tuple[tuple[str, str], ...]:
    """The lines of a histogram."""
    rates = f"sum by (le) (rate({family}_bucket{{}}{OVER}))"
    lines = [(legend, f"histogram_quantile({part}, {rates})") for part, legend in PERCENTILES]
    total, count = (f"sum (rate({family}_{it}{{}}{OVER}))" for it in ("sum", "count"))
    return (*lines, ("mean", f"{total} / {count}"))


# Title, unit, greatest value if there is one, the lines with what they ask, and why in this unit and so.
PANELS: tuple[tuple[str, str, int | None, tuple[tuple[str, str], ...], str], ...] = (
    (
        "Limit and permits in flight",
        "short",
        None,
        (
            ("limit {{instance}}", "admission_limit{}"),
            ("in flight {{instance}}", "admission_in_flight{}"),
            ("waiting {{instance}}", "admission_waiting{}"),
            ("granted {{instance}}", "admission_granted{}"),
            ("least {{instance}}", "admission_limit_least{}"),
            ("greatest {{instance}}", "admission_limit_greatest{}"),
        ),
        "requests",
    ),
    (
        "Decisions a second",
        "reqps",
        None,
        (rate("{{decision}}", "decision", "admission_decisions_total"),),
        "a counter, by the reply to callers",
    ),
    (
        "In flight by class, with its share",
        "short",
        None,
        (
            ("in flight {{class}}", "sum by (class) (admission_class_in_flight{})"),
            ("share {{class}}", "sum by (class) (admission_class_share{})"),
        ),
        "requests of all instances",
    ),
    (
        "Outcomes a second",
        "reqps",
        None,
        (rate("{{outcome}}", "outcome", "admission_outcomes_total"),),
        "a counter, by what the limit learns",
    ),
    (
        "The gateway's own answers a second",
        "reqps",
        None,
        (
            rate("{{status}}", "status", "admission_answers_total"),
            rate("sent nothing", "", "admission_empty_connections_total"),
        ),
        "counters; the two causes by which nobody reaches the backend",
    ),
    (
        "Troubles a second",
        "reqps",
        None,
        (rate("{{trouble}}", "trouble", "admission_troubles_total"),),
        "a counter, by its name in the log",
    ),
    (
        "Workers",
        "short",
        None,
        (("busy {{instance}}", "admission_busy_workers{}"), ("started {{instance}}", "admission_workers{}")),
        "threads",
    ),
    (
        "Age of the oldest permit",
        "s",
        None,
        (("{{instance}}", "admission_oldest_permit_seconds{}"),),
        "seconds, which rise one by one where the backend hangs",
    ),
    (
        "Waiting, by class",
        "short",
        None,
        (("waiting {{class}}", "sum by (class) (admission_class_waiting{})"),),
        "requests of all instances",
    ),
    (
        "Refused a second, by class",
        "reqps",
        None,
        (rate("{{class}}: {{cause}}", "class, cause", "admission_class_refused_total"),),
        "a counter, by the causes between which places and share decide",
    ),
    (
        "Round trip of the backend",
        "s",
        None,
        times("admission_round_trip_seconds"),
        "seconds; a half, one in twenty and one in a hundred, and what load is reckoned by",
    ),
    (
        "Waiting for a permit",
        "s",
        None,
        times("admission_permit_wait_seconds"),
        "seconds; one in twenty is what AdmissionWaitsLong goes by",
    ),
    ("Whole exchanges", "s", None, times("admission_exchange_seconds"), "seconds; what callers see"),
    (
        "Outcomes a second, by class",
        "reqps",
        None,
        (
            rate("{{class}}: {{outcome}}", "class, outcome", "admission_class_outcomes_total"),
            rate("{{class}}: waited for", "class", "admission_class_promoted_total"),
        ),
        "counters, both of requests that were let in",
    ),
    (
        "Connections to the backend",
        "short",
        None,
        (
            ("open {{instance}}", "admission_open_backend_connections{}"),
            ("idle {{instance}}", "admission_idle_backend_connections{}"),
        ),
        "connections, of which some idle",
    ),
    (
        "Connections to the backend a second",
        "cps",
        None,
        (rate("{{event}}", "event", "admission_backend_connections_total"),),
        "a counter, of connections",
    ),
    (
        "Times that the limit learns by",
        "s",
        None,
        (
            ("last window {{instance}}", "admission_limit_window_mean_seconds{}"),
            ("base {{instance}}", "admission_limit_base_seconds{}"),
        ),
        "seconds; their quotient moves the limit",
    ),
    (
        "Queue at the backend, as the limit reckons",
        "short",
        None,
        (
            ("queue {{instance}}", "admission_limit_queue{}"),
            ("answers of the last window {{instance}}", "admission_limit_window_calls{}"),
        ),
        "requests, and by how many answers it is known",
    ),
    (
        "Open connections of clients",
        "short",
        None,
        (
            ("silent {{instance}}", "admission_silent_client_connections{}"),
            ("kept {{instance}}", "admission_idle_client_connections{}"),
            ("served {{instance}}", "admission_busy_workers{}"),
        ),
        "connections, of each kind of client",
    ),
    (
        "Connections of clients a second",
        "cps",
        None,
        (rate("{{event}}", "event", "admission_client_connections_total"),),
        "a counter, of connections",
    ),
    (
        "Uptime",
        "s",
        None,
        (
            ("{{instance}}", "admission_uptime_seconds{}"),
            ("{{instance}} {{version}}", "admission_build_info{}"),
            ("{{instance}} limit of the kind {{kind}}", "admission_limit_info{}"),
            ("set by hand {{instance}}", "admission_limit_set_by_hand{}"),
        ),
        "seconds, which begin anew with a restart",
    ),
    (
        "Answers a second, by status",
        "reqps",
        None,
        (rate("{{status}}", "status", "admission_responses_total"),),
        "a counter, by what callers got",
    ),
    (
        "Backend that no connection can be made to",
        "",
        1,
        (("{{instance}}", "admission_backend_unreached{}"),),
        "0 or 1, which has no unit and never rises above",
    ),
)
# What it is as a whole: the way to a value, the value, and why.
BOARD: tuple[tuple[str, object, str], ...] = (
    ("title", "Admission", "the program's name"),
    ("uid", "admission", "an import replaces the same one"),
    ("tags", "admission", "what it is found by"),
    ("schemaVersion", 38, "the format that these panels are written in"),
    ("editable", True, "a copy may be changed"),
    ("timezone", "browser", "the time of who looks"),
    ("time.from", "now-1h", "an hour, in which a limit has moved"),
    ("time.to", "now", "what is now"),
    ("refresh", "10s", "as often as most scrape"),
)
# What is chosen above the panels.
VARIABLES: tuple[tuple[str, object, str], ...] = (
    ("templating.list[source].name", "source", "what the panels name"),
    ("templating.list[source].label", "Prometheus", "what people read"),
    ("templating.list[source].type", "datasource", "what it is"),
    ("templating.list[source].query", "prometheus", "where gateways are scraped"),
    ("templating.list[job].name", "job", "what the panels name"),
    ("templating.list[job].type", "query", "what it is"),
    ("templating.list[job].datasource.type", "prometheus", "what it is"),
    ("templating.list[job].datasource.uid", "${source}", "the one that was chosen"),
    ("templating.list[job].query.query", "label_values(admission_limit, job)", "what Prometheus has of the gateway"),
    ("templating.list[job].query.refId", "job", "each has one"),
    ("templating.list[job].refresh", 2, "again for each range: gateways come and go"),
    ("templating.list[job].includeAll", False, "one job"),
    ("templating.list[job].multi", False, "one job"),
    ("templating.list[job].sort", 1, "by the alphabet"),
    ("templating.list[instance].name", "instance", "what the panels name"),
    ("templating.list[instance].type", "query", "what it is"),
    ("templating.list[instance].datasource.type", "prometheus", "what it is"),
    ("templating.list[instance].datasource.uid", "${source}", "the one that was chosen"),
    (
        "templating.list[instance].query.query",
        'label_values(admission_limit{job="$job"}, instance)',
        "what Prometheus has of the gateway",
    ),
    ("templating.list[instance].query.refId", "instance", "each has one"),
    ("templating.list[instance].refresh", 2, "again for each range: gateways come and go"),
    ("templating.list[instance].includeAll", True, "all of a job at once"),
    ("templating.list[instance].multi", True, "some of a job"),
    ("templating.list[instance].sort", 1, "by the alphabet"),
)
# Name, what is asked, for how long it holds, how severe it is, and why.
ALERTS = (
    ("AdmissionDown", 'up{job="admission"} == 0', "1m", "critical", "several scrapes failed; a restart takes less"),
    (
        "AdmissionPermitsHeld",
        "admission_oldest_permit_seconds > 75",
        "30s",
        "critical",
        "above the 60 seconds of the unit's BACKEND_MS by a quarter; at more than one scrape",
    ),
    (
        "AdmissionAllWorkersBusy",
        "admission_busy_workers >= admission_workers",
        "1m",
        "critical",
        "all, and for longer than a burst",
    ),
    (
        "AdmissionBackendUnreached",
        'increase(admission_troubles_total{trouble="unreached"}[2m]) > 0',
        "1m",
        "critical",
        "one in two minutes is seen by each scrape; for longer than a restart of the backend",
    ),
    (
        "AdmissionBackendBreaks",
        'sum by (job, instance) (rate(admission_troubles_total{trouble=~"broken|backend-timeout"}[5m])) '
        "> 0.05 * sum by (job, instance) (rate(admission_outcomes_total[5m]))",
        "5m",
        "warning",
        "one in twenty, for as long as the rate is over",
    ),
    (
        "AdmissionRefuses",
        'rate(admission_answers_total{status="429"}[5m]) > on (job, instance) 0.2 * sum by (job, '
        "instance) "
        '(rate(admission_decisions_total{decision=~"admitted|full|backlog|promoted|timed-out"}[5m]))',
        "10m",
        "warning",
        "one in five, for twice as long as the rate is over: a rush that passes wakes nobody",
    ),
    (
        "AdmissionLimitAtLeast",
        "admission_limit <= admission_limit_least and on (job, instance) admission_limit_least < "
        'admission_limit_greatest and on (job, instance) rate(admission_answers_total{status="429"}[5m]) '
        "> 0",
        "10m",
        "warning",
        "at the least of those that move, and somebody is refused by it",
    ),
    (
        "AdmissionLimitAtGreatest",
        "admission_limit >= admission_limit_greatest and on (job, instance) admission_limit_least < "
        "admission_limit_greatest and on (job, instance) avg_over_time(admission_limit_queue[5m]) < 1 "
        'and on (job, instance) rate(admission_answers_total{status="429"}[5m]) > 0',
        "10m",
        "warning",
        "at the greatest of those that move, with less than one request in the queue",
    ),
    (
        "AdmissionClassRefusedBelowShare",
        "sum by (job, instance, class) (rate(admission_class_refused_total[5m])) > 0.1 and on (job, "
        "instance, class) (avg_over_time(admission_class_in_flight[5m]) < 0.5 * "
        "avg_over_time(admission_class_share[5m]))",
        "10m",
        "warning",
        "one in ten seconds, with less than half of what is promised in use",
    ),
    (
        "AdmissionWaitsLong",
        "histogram_quantile(0.95, sum by (job, instance, le) "
        "(rate(admission_permit_wait_seconds_bucket[5m]))) > 0.5",
        "10m",
        "warning",
        "half of the usual timeout_ms, for one in twenty",
    ),
    (
        "AdmissionRestarts",
        "resets(admission_uptime_seconds[15m]) >= 2",
        "",
        "warning",
        "the second one in a quarter of an hour is no upgrade; told at once",
    ),
    (
        "AdmissionLacksMemoryOrDescriptors",
        'increase(admission_answers_total{status="500"}[5m]) > 0 or on (job, instance) '
        'increase(admission_troubles_total{trouble="without-descriptor"}[5m]) > 0',
        "",
        "warning",
        "one is too many; told at once",
    ),
)
