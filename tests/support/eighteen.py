"""The script of eighteen commands (docs/examples.md, "A whole vote"): a vote from the first developer to the casting
vote."""
from tests.support.program import DAY, T0

CALLED, CLOSED = T0 + 14 * DAY, T0 + 21 * DAY

# Moments, paths and forms.
SCRIPT = [
    (T0, "/developers", "login=d1&name=One&status=current"),
    (T0, "/import", "login,name,status\nd2,Two,current\nd3,Three,current\nd4,Four,current\n"),
    (T0, "/resolutions", "author=d1&summary=Red&text=a&ratio=1"),
    (T0, "/resolutions/1/sponsor", "choice=1&login=d2"),
    (T0, "/resolutions/1/choice", "author=@leader&summary=Green&text=b&ratio=1"),
    (T0, "/resolutions/1/withdraw", "choice=2"),
    (T0, "/resolutions/1/adopt", "choice=2&author=@committee"),
    (T0, "/resolutions/1/unsponsor", "choice=1&login=d2"),
    (T0, "/resolutions/1/sponsor", "choice=1&login=d2"),
    (T0, "/resolutions/1/amend", "choice=1&minor=1&summary=Red&text=new"),
    (T0, "/resolutions/1/vary", "days=0"),
    (CALLED, "/resolutions/1/call", "days=7"),
    (CALLED, "/resolutions/1/vote", "login=d1&ranks=113&token=tokenA01"),
    (CALLED, "/resolutions/1/vote", "login=d2&ranks=113&token=tokenA02"),
    (CALLED, "/resolutions/1/vote", "login=d3&ranks=131&token=tokenA03"),
    (CALLED, "/resolutions/1/vote", "login=d3&ranks=113&token=tokenA04"),
    (CLOSED, "/resolutions/1/close", ""),
    (CLOSED, "/resolutions/1/cast", "place=1"),
]
