"""From how many bytes on a content is long: of such a one the session reads the params of a call that comes alone only
where the table has its method."""
import re

from support import ran

SOURCE = ran.text_of("crates", "peer_session", "src", "reading.rt")
(LONG,) = (int(it) for it in re.findall(r"^const LONG: usize = ([\d_]+);$", SOURCE, re.M))
# They make any content long, and change nothing of it.
BLANKS = " " * LONG
