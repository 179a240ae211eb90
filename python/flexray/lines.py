"""The forms of the printed lines that are taken apart: each value is a group, and so is what is one of several texts.
Written by tools/forms from the definitions of these lines, which are named here."""

# precision_text of fr_coverage
PRECISION = r"precision (\d+)"
# sync_text of fr_coverage
SYNC = r"in sync (never|\d+)"
# skew_text of fr_coverage
SKEW = r"greatest skew (-?\d+) cycle (\d+) macrotick (-?\d+)"
# gap_text of fr_coverage
GAP = (
    r"(check \d+ -?\d+ -?\d+|count \d+ \d+|length \d+ \d+ -?\d+|change \d+ \d+ -?\d+|delay \d+ \d+ (?:A|B) \d+ -?\d+|link \d+ "
    r"\d+ \d+)")
# nodes_text of fr_lines
NODES = r"nodes (\d+) sync (\d+) arbitrary (\d+) doubles (\d+)"
# covered_text of fr_lines
COVERED = (
    r"covered (yes|no (?:check \d+ -?\d+ -?\d+|count \d+ \d+|length \d+ \d+ -?\d+|change \d+ \d+ -?\d+|delay \d+ \d+ (?:A|B) "
    r"\d+ -?\d+|link \d+ \d+ \d+))")
# sent_text of fr_lines
SENT = r"sent (A|B) (\d+) xor ([0-9A-F]{6})"
# heard_text of fr_lines
HEARD = r"heard stored (\d+) outside (\d+) damaged (\d+) id (\d+) cycle (\d+) length (\d+) plain (\d+)"
# cut_text of fr_lines
CUT = r"cut (\d+)"
# node_text of fr_lines
NODE = r"node (\d+) (active|passive|halt) next (-?\d+) rate (-?\d+) offset (-?\d+)"
# counts_text of fr_check
TRACE = r"trace nodes (\d+) arbitrary (\d+) doubles (\d+)"
# check_line of fr_answer
CHECK = r"C(\d+) (holds|fails) (\d+) (\d+)"
# stated_line of fr_answer
STATED = r"start (\d+) rate (\d+)"
# apart_line of fr_answer
PEAK = r"peak (-?\d+)"
# verdict_line of fr_answer
SETTLES = r"settles (\d+|no check \d+ -?\d+ -?\d+)"
# sharp_stated_line of fr_answer
SHARPLY_STATED = r"start (\d+) rate (\d+) flutter (\d+)"
# lasting_text of fr_answer
LASTS = r"lasts (on|\d+)"
# first_rates_text of fr_answer
FIRST_RATES = r"first rates last (on|\d+)"
# loss_apart_line of fr_answer
APART = r"apart (\d+) (\d+)"
# longest_line of fr_answer
LONGEST = r"longest (none|\d+)"
# precision_told of fr_whole
SHARP_PRECISION = r"sharp precision (-?\d+) (alone|beside)"
# gap_shown of fr_whole
SHARP_GAP = (
    r"sharp covered no (check \d+ -?\d+ -?\d+|count \d+ \d+|length \d+ \d+ -?\d+|change \d+ \d+ -?\d+|delay \d+ \d+ (?:A|B) "
    r"\d+ -?\d+|link \d+ \d+ \d+)")
# synced_told of fr_whole
SHARP_SYNC = r"sharp in sync (no|\d+ (?:on|\d+))"
# greatest_told of fr_whole
SHARP_SKEW = r"sharp greatest skew (-?\d+) cycle (\d+) macrotick (\d+)"
# within_told of fr_whole
SHARP_WITHIN = r"sharp within (-|(?:yes|no -?\d+ cycle \d+ macrotick \d+))"
# lost_told of fr_whole
SHARP_LOST = r"sharp lost (\d+) last (-|\d+) bound (-|\d+ double \d+)"
# traced_kind_text of fr_whole
KIND = r"kind (alone|alike|beside)"
# traced_sync_text of fr_whole
TRACED_SYNC = r"in sync (never|\d+ (?:on|\d+))"
# unlike_shown of fr_whole
UNLIKE = r"unlike (\d+)"
# traced_within_text of fr_whole
TRACED_WITHIN = r"within (-|(?:yes|no -?\d+ cycle \d+ macrotick \d+))"
# counts_line of fr_cold
COLDSTART = r"coldstart (\d+) cycles (\d+)"
# connected_line of fr_cold
CONNECTED = r"connected (yes|no \d+ \d+)"
# lead_line of fr_cold
LEAD = r"lead (\d+) at (-?\d+)"
# line_at of fr_capture
AT = r"at (\d+) id (\d+) words (\d+) cycle (\d+) crc ([0-9A-F]{6})"
# frames_line of fr_capture
FRAMES = r"frames (\d+) bytes (\d+)"
# total_line of fr_nm
COUNTED = r"frames (\d+) ignored (\d+)"
