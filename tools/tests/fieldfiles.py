"""Random clusters as FIBEX and ARXML files, with what has to come of them. It shares no table and no code with flexlab's importer."""
import random
from fractions import Fraction

FBX, HO, FR = "http://www.asam.net/xml/fbx", "http://www.asam.net/xml", "http://www.asam.net/xml/fbx/flexray"
XSI = "http://www.w3.org/2001/XMLSchema-instance"
NAMES = ("Gateway", "Brake", "Steer", "Susp", "Radar", "Logger", "Engine", "Gear", "Door_L", "Door_R", "Tür", "Größe", "Camera", "Light")


class Made:
    """A cluster: its numbers, nodes in the order of the file as (name, key slot, sync, coldstart, channels), and further slots as
    slot to (node's place, cycles by base and repetition)."""

    def __init__(self, seed, is_plain=False):
        self.is_plain = is_plain
        self.random = rng = random.Random(seed)
        self.microtick = rng.choice((Fraction(25, 2), Fraction(25), Fraction(50)))
        ticks = rng.randint(40, 100)
        self.slots_count = rng.randint(14, 90)
        slot = rng.randint(8, 60)
        rest = rng.randint(60, 900)
        macros = self.slots_count * slot + rest
        start = self.slots_count * slot + rng.randint(1, rest - 30)
        micros, rate = macros * ticks, rng.randint(2, 1900)
        rate = min(rate, micros // 50)
        most = (micros - rate) * (macros - start) // macros - (macros - start) - 1
        passive = rng.randint(1, 15)
        one = rng.randint(1, 200)
        other = one if rng.random() < 0.4 else rng.randint(1, 200)
        self.p = {
            "gMacroPerCycle": macros, "pMicroPerCycle": micros, "gNumberOfStaticSlots": self.slots_count, "gdStaticSlot": slot,
            "gdActionPointOffset": rng.randint(1, min(63, slot - 1)), "gdNIT": rest, "gPayloadLengthStatic": rng.randint(0, 127),
            "gOffsetCorrectionStart": start, "gMaxWithoutClockCorrectionPassive": passive,
            "gMaxWithoutClockCorrectionFatal": rng.randint(passive, 15), "pAllowHaltDueToClock": rng.randint(0, 1),
            "pAllowPassiveToActive": rng.randint(0, 31), "pClusterDriftDamping": rng.randint(0, 20),
            "pOffsetCorrectionOut": rng.randint(1, min(16000, most)), "pRateCorrectionOut": rate, "A": one, "B": other}
        self.start_bits, self.bit_rate = rng.randint(3, 15), rng.choice((2500000, 5000000, 10000000))
        self.nit = rng.randint(2, 30)
        count = rng.randint(2, 12)
        keys = rng.sample(range(1, self.slots_count + 1), count)
        self.nodes = []
        for at, name in enumerate(rng.sample(NAMES, count)):
            has_key = at < 2 or rng.random() < 0.7
            is_sync = at < 2 or has_key and rng.random() < 0.8
            is_cold = is_sync and has_key and (at < 2 or rng.random() < 0.3)
            self.nodes.append((name, keys[at] if has_key else None, is_sync and has_key, is_cold,
                               "AB" if at < 2 else rng.choice(("A", "B", "AB", "AB"))))
        rng.shuffle(self.nodes)
        self.further = {}
        free = [slot for slot in range(1, self.slots_count + 1) if slot not in keys]
        for slot in rng.sample(free, min(len(free), rng.randint(0, 6))):
            step = rng.choice((1, 2, 4, 8, 16, 32, 64))
            base = rng.randrange(step)
            halves = step <= 32 and rng.random() < 0.4
            timings = [(base, 2 * step), (base + step, 2 * step)] if halves else [(base, step)]
            self.further[slot] = (rng.randrange(count), timings, base, step)
        # A key slot that is not for sync is a further one.
        for at, (_, key, is_sync, _, _) in enumerate(self.nodes):
            if key is not None and not is_sync:
                self.further[key] = (at, [(0, 1)], 0, 1)

    def ordered(self):
        """Places of the nodes as flexlab numbers them."""
        syncs = [at for at, node in enumerate(self.nodes) if node[2]]
        return sorted(syncs, key=lambda at: self.nodes[at][1]) + [at for at, node in enumerate(self.nodes) if not node[2]]

    def wanted(self):
        """The parameter file that has to come out, with limits of 100 ppm, none, and a microtick."""
        one, two = self.p["A"], self.p["B"]
        lines = [] if one == two else ["version,2,,,"]
        lines += [f"param,{name},{value},," for name, value in self.p.items() if name not in "AB"]
        both = (("", one),) if one == two else (("A", one), ("B", two))
        lines += [f"param,pDelayCompensation{channel},{wait},," for channel, wait in both]
        lines += ["param,xRateBound,100,,", "param,xChangeBound,0,,", "param,xDelayError,1000000,,"]
        numbers = {at: number for number, at in enumerate(self.ordered(), 1)}
        for at in self.ordered():
            _, key, is_sync, cold, channels = self.nodes[at]
            lines.append(f"node,{numbers[at]},{key if is_sync else ''},{channels},{int(cold)}")
        lines += [f"slot,{slot},{numbers[at]},{base},{step}" for slot, (at, _, base, step) in sorted(self.further.items())]
        return "\n".join(lines) + "\n"

    def words(self):
        """The delays: a microtick beside the compensation of each channel."""
        found = ["--oscillator-ppm", "100", "--change-ppm", "0"]
        for channel in "AB":
            wait = self.p[channel] * self.microtick
            found += [f"--delay-{channel.lower()}-ns", f"{float(wait - self.microtick):g}-{float(wait + self.microtick):g}"]
        return found

    # ---- text

    def number(self, text):
        """A number as tools write it: with blanks, a comment, a section or a reference in it."""
        text, kind = str(text), self.random.randrange(12)
        kind = kind if kind == 0 or not self.is_plain else 12
        if kind == 0:
            return f"  {text}\n"
        if kind == 1 and len(text) > 1:
            return f"{text[0]}<!-- {self.random.randrange(99)} -->{text[1:]}"
        if kind == 2:
            return f"<![CDATA[{text}]]>"
        if kind == 3:
            return f"&#{ord(text[0])};{text[1:]}"
        return text

    def flag(self, value):
        return self.number(self.random.choice(("true", "1")) if value else self.random.choice(("false", "0")))

    def encoded(self, text):
        kind = self.random.randrange(8)
        if self.random.random() < 0.3:
            text = text.replace("\n", "\r\n")
        head = '<?xml version="1.0" encoding="{}"?>\n'
        if kind == 0:
            return (head.format("UTF-16") + text).encode("utf-16")
        if kind == 1:
            return (head.format("iso-8859-1") + text).encode("iso-8859-1")
        if kind == 2:
            return (head.format("utf-8") + text).encode("utf-8-sig")
        return (head.format("utf-8") + text).encode()

    def float_of(self, value):
        """A length as tools write floats, their noise with it."""
        return self.random.choice((repr(float(value)), f"{float(value):.12f}".rstrip("0"), f"{float(value):.6E}",
                                   repr(float(value) * (1 + 2 ** -52))))


def fibex(made):
    """The cluster as FIBEX, in bytes."""
    rng, p = made.random, made.p
    fx, ho, fr = rng.choice((("fx:", "ho:", "flexray:"), ("", "n1:", "fr:"), ("flexray:", "fx:", "ho:")))
    micro = made.microtick / 1000
    cluster = [("ACTION-POINT-OFFSET", p["gdActionPointOffset"]), ("N-I-T", made.nit), ("STATIC-SLOT", p["gdStaticSlot"]),
               ("T-S-S-TRANSMITTER", made.start_bits), ("MACRO-PER-CYCLE", p["gMacroPerCycle"]),
               ("MAX-WITHOUT-CLOCK-CORRECTION-FATAL", p["gMaxWithoutClockCorrectionFatal"]),
               ("MAX-WITHOUT-CLOCK-CORRECTION-PASSIVE", p["gMaxWithoutClockCorrectionPassive"]),
               ("NUMBER-OF-STATIC-SLOTS", p["gNumberOfStaticSlots"]), ("OFFSET-CORRECTION-START", p["gOffsetCorrectionStart"]),
               ("PAYLOAD-LENGTH-STATIC", p["gPayloadLengthStatic"]), ("COLD-START-ATTEMPTS", 10), ("LISTEN-NOISE", 2)]
    rng.shuffle(cluster)
    text = [f'<{fx}FIBEX xmlns{":" + fx[:-1] if fx else ""}="{FBX}" xmlns:{ho[:-1]}="{HO}" xmlns:{fr[:-1]}="{FR}" xmlns:xsi="{XSI}" '
            'VERSION="3.1.0">', f"<{fx}ELEMENTS>"]
    clusters = [f'<{fx}CLUSTERS><{fx}CLUSTER ID="can"><{ho}SHORT-NAME>CAN1</{ho}SHORT-NAME><{fx}SPEED>500000</{fx}SPEED></{fx}CLUSTER>',
                f'<{fx}CLUSTER ID="cl" xsi:type="{fr}CLUSTER-TYPE">', f"<{ho}SHORT-NAME>FR</{ho}SHORT-NAME>",
                f"<{fx}SPEED>{made.number(made.bit_rate)}</{fx}SPEED>",
                f'<{fx}CHANNEL-REFS><{fx}CHANNEL-REF ID-REF="chA"/><{fx}CHANNEL-REF ID-REF="chB"/></{fx}CHANNEL-REFS>',
                f"<{fx}MANUFACTURER-EXTENSION><MACRO-PER-CYCLE>1</MACRO-PER-CYCLE></{fx}MANUFACTURER-EXTENSION>",
                *(f"<{fr}{name}>{made.number(value)}</{fr}{name}>" for name, value in cluster), f"</{fx}CLUSTER></{fx}CLUSTERS>"]
    channels, sent = [f"<{fx}CHANNELS>", f'<{fx}CHANNEL ID="chC"><{ho}SHORT-NAME>CAN</{ho}SHORT-NAME></{fx}CHANNEL>'], {}
    for channel in "AB":
        channels += [f'<{fx}CHANNEL ID="ch{channel}"><{ho}SHORT-NAME>{channel}</{ho}SHORT-NAME>', f"<{fx}FRAME-TRIGGERINGS>"]
        frames = [(at, key, [(0, 1)]) for at, (_, key, is_sync, _, _) in enumerate(made.nodes) if is_sync]
        frames += [(at, slot, timings) for slot, (at, timings, _, _) in made.further.items()]
        for at, slot, timings in frames:
            if channel in made.nodes[at][4]:
                for turn, (base, step) in enumerate(timings):
                    name = f"t{channel}{slot}_{turn}"
                    sent.setdefault((at, channel), []).append(name)
                    channels.append(f'<{fx}FRAME-TRIGGERING ID="{name}"><{fx}TIMINGS><{fx}ABSOLUTELY-SCHEDULED-TIMING>'
                                    f"<{fx}SLOT-ID>{slot}</{fx}SLOT-ID><{fx}BASE-CYCLE>{base}</{fx}BASE-CYCLE>"
                                    f"<{fx}CYCLE-REPETITION>{step}</{fx}CYCLE-REPETITION></{fx}ABSOLUTELY-SCHEDULED-TIMING></{fx}TIMINGS>"
                                    f'<{fx}FRAME-REF ID-REF="f"/></{fx}FRAME-TRIGGERING>')
        channels += [f"</{fx}FRAME-TRIGGERINGS>", f"<{fr}FLEXRAY-CHANNEL-NAME>{channel}</{fr}FLEXRAY-CHANNEL-NAME></{fx}CHANNEL>"]
    channels.append(f"</{fx}CHANNELS>")
    ecus = [f"<{fx}ECUS>"]
    for at, (name, key, is_sync, cold, on) in enumerate(made.nodes):
        usage = "NONE" if key is None or not is_sync else "STARTUP-SYNC" if cold else "SYNC"
        slot = f"<{fr}{usage}/>" if usage == "NONE" else f"<{fr}{usage}>{made.number(key)}</{fr}{usage}>"
        values = [("MICRO-PER-CYCLE", made.number(p["pMicroPerCycle"])), ("MICROTICK", made.float_of(micro)),
                  ("ALLOW-HALT-DUE-TO-CLOCK", made.flag(p["pAllowHaltDueToClock"])),
                  ("ALLOW-PASSIVE-TO-ACTIVE", made.number(p["pAllowPassiveToActive"])),
                  ("CLUSTER-DRIFT-DAMPING", made.number(p["pClusterDriftDamping"])), ("DELAY-COMPENSATION-A", made.number(p["A"])),
                  ("DELAY-COMPENSATION-B", made.number(p["B"])), ("OFFSET-CORRECTION-OUT", made.number(p["pOffsetCorrectionOut"])),
                  ("RATE-CORRECTION-OUT", made.number(p["pRateCorrectionOut"])), ("DECODING-CORRECTION", "44")]
        rng.shuffle(values)
        ecus += [f'<{fx}ECU ID="e{at}"><{ho}SHORT-NAME>{name}</{ho}SHORT-NAME>', f"<{fx}CONNECTORS>",
                 f'<{fx}CONNECTOR ID="kc{at}"><{fx}CHANNEL-REF ID-REF="chC"/></{fx}CONNECTOR>']
        for channel in on:
            ports = "".join(f'<{fx}OUTPUT-PORT ID="o{at}{one}"><{fx}FRAME-TRIGGERING-REF ID-REF="{one}"/></{fx}OUTPUT-PORT>'
                            for one in sent.get((at, channel), []))
            ecus.append(f'<{fx}CONNECTOR ID="k{at}{channel}"><{fx}CHANNEL-REF ID-REF="ch{channel}"/><{fx}CONTROLLER-REF ID-REF="c{at}"/>'
                        f"<{fx}OUTPUTS>{ports}</{fx}OUTPUTS></{fx}CONNECTOR>")
        ecus += [f"</{fx}CONNECTORS>", f'<{fx}CONTROLLERS><{fx}CONTROLLER ID="c{at}" xsi:type="{fr}CONTROLLER-TYPE">',
                 *(f"<{fr}{one}>{value}</{fr}{one}>" for one, value in values), f"<{fr}KEY-SLOT-USAGE>{slot}</{fr}KEY-SLOT-USAGE>",
                 f"</{fx}CONTROLLER></{fx}CONTROLLERS></{fx}ECU>"]
    ecus.append(f"</{fx}ECUS>")
    frame = [f'<{fx}FRAMES><{fx}FRAME ID="f"><{fx}BYTE-LENGTH>{2 * p["gPayloadLengthStatic"]}</{fx}BYTE-LENGTH></{fx}FRAME></{fx}FRAMES>']
    parts = [clusters, channels, ecus, frame]
    rng.shuffle(parts)
    for part in parts:
        text += part
    return made.encoded("\n".join([*text, f"</{fx}ELEMENTS></{fx}FIBEX>"]) + "\n")


def arxml(made):
    """The cluster as ARXML, in bytes."""
    rng, p = made.random, made.p
    x = rng.choice(("", "", "ar:"))
    joined, variants, deep = rng.random() < 0.5, rng.random() < 0.8, rng.choice(((), ("Net",), ("Net", "Sub")))
    tag = lambda name, inside: f"<{x}{name}>{inside}</{x}{name}>"  # noqa: E731
    short = lambda name: tag("SHORT-NAME", name)  # noqa: E731
    seconds = made.microtick / 1000000000
    path = lambda name: "/" + "/".join([*deep, "Ecus", name])  # noqa: E731
    ref = lambda name, dest, told: f'<{x}{name} DEST="{dest}">{told}</{x}{name}>'  # noqa: E731
    frames = [(at, key, [(0, 1)]) for at, (_, key, is_sync, _, _) in enumerate(made.nodes) if is_sync]
    frames += [(at, slot, timings) for slot, (at, timings, _, _) in made.further.items()]
    ecus = []
    for at, (name, key, is_sync, cold, on) in enumerate(made.nodes):
        values = [("MICRO-PER-CYCLE", made.number(p["pMicroPerCycle"])), ("MICROTICK-DURATION", made.float_of(seconds)),
                  ("ALLOW-HALT-DUE-TO-CLOCK", made.flag(p["pAllowHaltDueToClock"])),
                  ("ALLOW-PASSIVE-TO-ACTIVE", made.number(p["pAllowPassiveToActive"])),
                  ("CLUSTER-DRIFT-DAMPING", made.number(p["pClusterDriftDamping"])), ("DELAY-COMPENSATION-A", made.number(p["A"])),
                  ("DELAY-COMPENSATION-B", made.number(p["B"])), ("OFFSET-CORRECTION-OUT", made.number(p["pOffsetCorrectionOut"])),
                  ("RATE-CORRECTION-OUT", made.number(hex(p["pRateCorrectionOut"]) if rng.random() < 0.2 else p["pRateCorrectionOut"]))]
        if key is not None:
            values += [("KEY-SLOT-ID", made.number(key)), ("KEY-SLOT-USED-FOR-SYNC", made.flag(is_sync)),
                       ("KEY-SLOT-USED-FOR-START-UP", made.flag(cold))]
        rng.shuffle(values)
        inside = "\n".join(tag(*value) for value in values)
        if variants:
            inside = tag("FLEXRAY-COMMUNICATION-CONTROLLER-VARIANTS", tag("FLEXRAY-COMMUNICATION-CONTROLLER-CONDITIONAL", inside))
        controller = tag("COMM-CONTROLLERS", tag("CAN-COMMUNICATION-CONTROLLER", short("Can"))
                         + tag("FLEXRAY-COMMUNICATION-CONTROLLER", short("Fr") + inside))
        connectors = ""
        for channels in [on] if joined else on:
            ports = "".join(tag("FRAME-PORT", short(f"{sender}_{slot}_{channels}") + tag("COMMUNICATION-DIRECTION",
                                                                                         "OUT" if sender == at else "IN"))
                            for sender, slot, _ in frames)
            connectors += tag("FLEXRAY-COMMUNICATION-CONNECTOR", short(f"C{channels}")
                              + ref("COMM-CONTROLLER-REF", "FLEXRAY-COMMUNICATION-CONTROLLER", f"{path(name)}/Fr")
                              + tag("ECU-COMM-PORT-INSTANCES", ports))
        ecus.append(tag("ECU-INSTANCE", f"\n{short(name)}\n{controller}\n{tag('CONNECTORS', connectors)}"))
    channels = ""
    for channel in "AB":
        refs, triggerings = [], []
        for at, (name, _, _, _, on) in enumerate(made.nodes):
            if channel in on:
                told = ref("COMMUNICATION-CONNECTOR-REF", "FLEXRAY-COMMUNICATION-CONNECTOR", f"{path(name)}/C{on if joined else channel}")
                refs.append(tag("COMMUNICATION-CONNECTOR-REF-CONDITIONAL", told))
        rng.shuffle(refs)
        for at, slot, timings in frames:
            if channel not in made.nodes[at][4]:
                continue
            ports = [one for one, (_, _, _, _, on) in enumerate(made.nodes) if channel in on]
            rng.shuffle(ports)
            ends = "".join(ref("FRAME-PORT-REF", "FRAME-PORT", f"{path(made.nodes[one][0])}/C{made.nodes[one][4] if joined else channel}/"
                               f"{at}_{slot}_{made.nodes[one][4] if joined else channel}") for one in ports)
            told = "".join(tag("FLEXRAY-ABSOLUTELY-SCHEDULED-TIMING", tag("COMMUNICATION-CYCLE", cycle(tag, base, step))
                               + tag("SLOT-ID", made.number(slot))) for base, step in timings)
            triggerings.append(tag("FLEXRAY-FRAME-TRIGGERING", short(f"T{slot}") + tag("FRAME-PORT-REFS", ends)
                                   + tag("ABSOLUTELY-SCHEDULED-TIMINGS", told)))
        channels += tag("FLEXRAY-PHYSICAL-CHANNEL", short(f"Ch{channel}") + tag("COMM-CONNECTORS", "\n".join(refs))
                        + tag("FRAME-TRIGGERINGS", "\n".join(triggerings)) + tag("CHANNEL-NAME", f"CHANNEL-{channel}"))
    values = [("ACTION-POINT-OFFSET", p["gdActionPointOffset"]), ("NETWORK-IDLE-TIME", made.nit),
              ("STATIC-SLOT-DURATION", p["gdStaticSlot"]),
              ("TRANSMISSION-START-SEQUENCE-DURATION", made.start_bits), ("MACRO-PER-CYCLE", p["gMacroPerCycle"]),
              ("MAX-WITHOUT-CLOCK-CORRECTION-FATAL", p["gMaxWithoutClockCorrectionFatal"]), ("BAUDRATE", made.bit_rate),
              ("MAX-WITHOUT-CLOCK-CORRECTION-PASSIVE", p["gMaxWithoutClockCorrectionPassive"]),
              ("NUMBER-OF-STATIC-SLOTS", p["gNumberOfStaticSlots"]), ("OFFSET-CORRECTION-START", p["gOffsetCorrectionStart"]),
              ("PAYLOAD-LENGTH-STATIC", p["gPayloadLengthStatic"])]
    rng.shuffle(values)
    inside = tag("PHYSICAL-CHANNELS", channels) + "\n".join(tag(name, made.number(value)) for name, value in values)
    if variants:
        inside = tag("FLEXRAY-CLUSTER-VARIANTS", tag("FLEXRAY-CLUSTER-CONDITIONAL", inside))
    cluster = tag("FLEXRAY-CLUSTER", short("FR") + inside)
    packages = [tag("AR-PACKAGE", short("Ecus") + tag("ELEMENTS", "\n".join(ecus))),
                tag("AR-PACKAGE", short("Clusters") + tag("ELEMENTS", cluster)),
                tag("AR-PACKAGE", short("Types") + tag("ELEMENTS", tag("SW-BASE-TYPE", short("uint8"))))]
    rng.shuffle(packages)
    body = tag("AR-PACKAGES", "\n".join(packages))
    for name in reversed(deep):
        body = tag("AR-PACKAGES", tag("AR-PACKAGE", short(name) + body))
    return made.encoded(f'<{x}AUTOSAR xmlns{":ar" if x else ""}="http://autosar.org/schema/r4.0" xmlns:xsi="{XSI}" '
                        f'xsi:schemaLocation="http://autosar.org/schema/r4.0 AUTOSAR_00048.xsd">\n{body}\n</{x}AUTOSAR>\n')


def cycle(tag, base, step):
    """A timing by base and repetition, or of one cycle in 64 by its counter."""
    if step == 64 and base % 2:
        return tag("CYCLE-COUNTER", tag("CYCLE-COUNTER", base))
    return tag("CYCLE-REPETITION", tag("BASE-CYCLE", base) + tag("CYCLE-REPETITION", f"CYCLE-REPETITION-{step}"))


def registers(made):
    """The nodes as dumps of registers of a Bosch E-Ray, by name: addresses of a chip or names, in any order."""
    rng, p, found = made.random, made.p, {}
    for name, key, is_sync, cold, channels in made.nodes:
        words = {
            "SUCC1": (0x80, cold << 8 | is_sync << 9 | rng.randrange(32) << 11 | p["pAllowPassiveToActive"] << 16
                      | p["pAllowHaltDueToClock"] << 23 | ("A" in channels) << 26 | ("B" in channels) << 27),
            "SUCC3": (0x88, p["gMaxWithoutClockCorrectionPassive"] | p["gMaxWithoutClockCorrectionFatal"] << 4),
            "PRTC1": (0x90, made.start_bits | rng.randrange(128) << 4 | {10000000: 0, 5000000: 1, 2500000: 2}[made.bit_rate] << 14),
            "MHDC": (0x98, p["gPayloadLengthStatic"] | rng.randrange(8192) << 16), "GTUC1": (0xA0, p["pMicroPerCycle"]),
            "GTUC2": (0xA4, p["gMacroPerCycle"] | 15 << 16), "GTUC4": (0xAC, rng.randrange(16384) | p["gOffsetCorrectionStart"] - 1 << 16),
            "GTUC5": (0xB0, p["A"] | p["B"] << 8 | p["pClusterDriftDamping"] << 16 | rng.randrange(256) << 24),
            "GTUC7": (0xB8, p["gdStaticSlot"] | p["gNumberOfStaticSlots"] << 16),
            "GTUC9": (0xC0, p["gdActionPointOffset"] | rng.randrange(32) << 8),
            "GTUC10": (0xC4, p["pOffsetCorrectionOut"] | p["pRateCorrectionOut"] << 16), "GTUC11": (0xC8, 0)}
        base = rng.choice((0, 0xF001C000))
        lines = [f"{word if rng.random() < 0.5 else f'0x{base + offset:08X}'}{rng.choice((' ', ' = ', ': ', chr(9)))}"
                 f"{rng.choice(('', '0x'))}{value:08X}" for word, (offset, value) in words.items()]
        lines += ["# a comment", "0x0FC 00000003", *([f"WRHS1 {key | rng.randrange(4) << 28:#x}"] if is_sync else [])]
        rng.shuffle(lines)
        found[name] = "\n".join(lines) + "\n"
    return found
