"""What gr-desk install puts into a folder, and what each unit there has to say."""
import re
from pathlib import Path

from tests.support.program import TOP

# The commands that are for the sources alone, as is the room package/ of the tools.
FOR_SOURCES = "install", "manual", "package"
PACKAGE = TOP / "tools" / "grdesk"


def is_installed(path):
    room, name = path.relative_to(PACKAGE).parts[0], path.stem
    return room != "package" and not (room == "commands" and name in FOR_SOURCES)


# What is installed as it is in the sources, beside the program.
MODULES = [str(path.relative_to(TOP)) for path in sorted(PACKAGE.rglob("*.py")) if is_installed(path)]
RUN = ["tools/gr-desk", "examples/check_receipt", "examples/recount"]
DOCS = "formats.md", "result.png", "rules.md", "service.md"
READ = ["CHANGELOG.md", "README.md", *(f"docs/{name}" for name in DOCS)]
NAMED = [*RUN, *MODULES, *READ]
SAME = ["gr_desk", *NAMED]
COMMANDS = [name for name in NAMED if re.fullmatch(r"tools/grdesk/commands/[a-z]\w*\.py|examples/\w+", name)]
COMMAND_NAMES = sorted(Path(name).stem for name in COMMANDS)
SUBCOMMANDS = ["init", "once", "serve", "import", "roll", "status", "tally", "result", "migrate"]
# The man page of each tool and example, of the command and of the program with its subcommands.
PAGES = {name: f"man/man1/gr-desk-{Path(name).stem}.1" for name in COMMANDS}
PAGES |= {"tools/gr-desk": "man/man1/gr-desk.1", "gr_desk": "man/man1/gr_desk.1"}
COMPLETION = "completion/gr-desk"
COMMAND = "bin/gr-desk"
UNITS = sorted(f"systemd/{path.name}" for path in (TOP / "tools" / "units").iterdir())

# What each unit runs, where @ stands for the folder.
PROXY = "/lib/systemd/systemd-socket-proxyd 127.0.0.1:8123"
SERVES = [
    """-/bin/sh -c 'exec "$$0" clock desk.db >/dev/null' "@/tools/gr-desk\"""",
    '"@/gr_desk" serve desk.db --port 8123 --count 100000',
]
RUNS = {
    "gr_desk.service": SERVES,
    "gr_desk-private.service": SERVES,
    "gr_desk-proxy.service": ['"@/tools/gr-desk" wait --port 8123', PROXY],
    # The times of the socket are nobody's but those who may connect.
    "gr_desk.socket": ["/usr/bin/install -d -o root -g _gr_desk -m 0750 /run/gr_desk"],
    "gr_desk-backup.service": ['"@/tools/gr-desk" backup --thin desk.db backups'],
    "gr_desk-copy-out.service": ['"@/tools/gr-desk" copy_out desk.db backups'],
    "gr_desk-alarm@.service": ['"@/tools/gr-desk" alarm %i'],
}
# What each has to say besides, and what a unit may not say.
REQUIRES_A_DESK = "ConditionPathExists=%S/gr_desk/desk.db"
OF_A_DESK = f"""{REQUIRES_A_DESK} User=_gr_desk UMask=0077 StateDirectory=gr_desk StateDirectoryMode=0700
IPAddressDeny=any IPAddressAllow=localhost Restart=always RestartSec=2 StartLimitBurst=5 StartLimitIntervalSec=60
ProtectHome=yes NoNewPrivileges=yes ProtectSystem=strict PrivateUsers=yes ProtectProc=invisible
OnFailure=gr_desk-alarm@%n.service"""
OF_COPIES = f"""{REQUIRES_A_DESK} User=_gr_desk UMask=0077 StateDirectoryMode=0700 Type=oneshot ProtectHome=yes
NoNewPrivileges=yes OnFailure=gr_desk-alarm@%n.service"""
# The proxy starts after the desk and the socket, and stops with either, with the desk also after a fault. So
# acts wait at the socket. Either starts it, and no act does.
PROXY_FOLLOWS = [
    "Requires=gr_desk.socket",
    "BindsTo=gr_desk-private.service",
    "After=gr_desk.socket gr_desk-private.service",
]
STARTS_THE_PROXY = {
    "gr_desk.socket": "Wants=gr_desk-private.service gr_desk-proxy.service",
    "gr_desk-private.service": "Wants=gr_desk-proxy.service",
}
SAYS = {
    "gr_desk.service": f"{OF_A_DESK} SyslogIdentifier=gr_desk",
    "gr_desk-private.service": f"""{OF_A_DESK} SyslogIdentifier=gr_desk PrivateNetwork=yes Conflicts=gr_desk.service
    PartOf=gr_desk.socket""",
    "gr_desk.socket": f"""{REQUIRES_A_DESK} ListenStream=/run/gr_desk/desk.sock SocketMode=0660 SocketGroup=_gr_desk
    TriggerLimitIntervalSec=60 TriggerLimitBurst=6 Service=gr_desk-proxy.service Conflicts=gr_desk.service
    OnFailure=gr_desk-alarm@%n.service""",
    "gr_desk-proxy.service": f"""{REQUIRES_A_DESK} PrivateNetwork=yes JoinsNamespaceOf=gr_desk-private.service
    Restart=on-abnormal StartLimitBurst=20 StartLimitIntervalSec=60
    SyslogIdentifier=gr_desk-proxy DynamicUser=yes LogLevelMax=notice ProtectHome=yes NoNewPrivileges=yes
    OnFailure=gr_desk-alarm@%n.service""",
    "gr_desk-backup.service": f"""{OF_COPIES} PrivateNetwork=yes SyslogLevel=notice LogLevelMax=notice
    SyslogIdentifier=gr_desk-backup""",
    "gr_desk-backup.timer": "OnCalendar=*:0/15 Persistent=true WantedBy=timers.target",
    "gr_desk-copy-out.service": f"""{OF_COPIES} EnvironmentFile=-/etc/default/gr-desk
    SyslogIdentifier=gr_desk-copy-out""",
    "gr_desk-copy-out.timer": "OnCalendar=*:05 WantedBy=timers.target",
    "gr_desk-alarm@.service": "Type=oneshot SyslogLevel=err SyslogIdentifier=gr_desk-alarm",
}
NEVER = {"gr_desk.service": "PrivateNetwork=yes", "gr_desk-copy-out.service": "PrivateNetwork=yes"}
