"""What each flag of a command means, in a line: for the help and for the man page."""

# Of each command of the table in commands.py its flags in their order, each with what stands behind it.
FLAGS = {
    "run": [
        ("--out FOLDER", "what is sent goes to files in this folder, which must have none of them yet"),
        ("--append", "what is sent may be added to files that are there"),
        ("--convert", "a capture that is packed, of another form or of other frames is made readable first"),
        ("--counts", "in the place of the report: hits of bindings and guards, drops, bytes of endpoints, as a table"),
        ("--json", "with --counts: as JSON"),
    ],
    "check": [("--convert", "as under run")],
    "join": [(flag, "as under run") for flag in ("--out FOLDER", "--append", "--convert", "--counts", "--json")],
    "gen": [("--out FOLDER", "as under run"), ("--append", "as under run")],
    "build": [
        ("--all", "the hosts are proved and built too"),
        ("--libraries", "the libraries are built that rt check goes on from, and no program"),
        ("--any-logic", "also with a kit of another logic than the one that proved these sources"),
    ],
    "library": [
        ("--plain", "of the sources as ordinary Rust, also where the proved library is built"),
        ("--out FOLDER", "where its files are written; else out/library"),
    ],
    "explain": [
        ("--report REPORT", "the report that is explained; else the script is run for one, and nothing is sent"),
        ("--convert", "as under run"),
    ],
    "picture": [
        ("--html", "the picture stands in a page that can be searched, and in which a click on a box tells why"),
        ("--convert", "as under run"),
        ("--out FILE", "the picture goes to this file, else to standard output"),
    ],
    "filter": [
        ("-e EXPRESSION", "in the place of SCRIPT: the frames that tcpdump lets through with this expression"),
        ("-w FILE", "with -e: the capture that is written; without it out0.pcap of the folder"),
        ("--script", "with -e: the script that says the expression is printed, and nothing is run"),
        ("--jobs N", "so many pieces side by side; else as many as there are processors"),
        ("--out FOLDER", "where the endpoints' files are written; else filtered"),
        ("--pcap", "frames that endpoints received are written as captures"),
        ("--piece N", "a piece has at most N records; else captures up to 256 MiB are one each, others cut at 250,000"),
        ("--part K/N", "every Nth piece alone, from the Kth on, and nothing is joined"),
        ("--convert", "as under run"),
        ("--counts", "as under run, in the place of the counts of packets"),
        ("--json", "with --counts: as JSON"),
    ],
}
