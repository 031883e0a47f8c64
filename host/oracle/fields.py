"""soundness field by field: a case alone and a case with one event of each kind; every value of every field (dates: the borders), counts around the room; the
   same rows cut to 91 bytes are converted"""
import json, random, sys, time
import compare as K, oracle as O


def main():
    T0 = O.day(b"2018-04-10")
    k = (10, b"101", T0, K.ID88)
    case = O.unpack(O.pack_case(k, (1950, b"12345", (1, 2, 3, 0, 1, 2))), O.CASE_WIDTHS)
    evs = [(0, T0 + 5, 1, O.NO_END, 0, 1), (1, T0 + 5, 13, O.NO_END, 7, 0), (2, T0 + 5, 9, T0 + 7, 0, 0), (2, T0 + 5, 9, O.NO_END, 0, 0), (3, T0 + 5, 97, O.NO_END, 0, 0)]
    row = lambda f, w: O.pack(list(zip(f, w)))
    days = [0, 1, T0 - 1, T0, T0 + 1, T0 + 4, T0 + 5, T0 + 6, T0 + 7, 73047, 73048, 73049, 73050, 131069, 131070, 131071, 65535, 65536, 36583, 43464]
    values = lambda w: days if w == 17 else range(1 << w) if w <= 14 else [0, (1 << w) - 1] + [1 << i for i in range(w)]
    kept = [(0, T0 + 5, 1, O.NO_END, 0, 2, ((1, 2, 3, 0, 1, 2), b"12345")), (0, T0 + 5, 1, O.NO_END, 0, 2, ((0,) * 6, b"401")), (0, T0 + 5, 2, O.NO_END, 0, 2)]
    sub = K.tiny(2).replace(b"2018-04-01", b"2018-04-10")

    def go(cases, events, length=None, n=0):
        r = len(cases).to_bytes(2, "big") + len(events).to_bytes(2, "big") + b"".join(cases + events)
        r = r.ljust(length or len(r) + O.ROW, b"\0")
        s = K.check_sound(r)
        old = r[:4] + b"".join(x[:O.OLD_ROW] for x in cases + events) + bytes(n % 3)
        K.check_convert(old, b"\xA5" * (4 + O.ROW * len(cases + events) + n % 2))
        if n % 7 == 0 or s == 0:
            K.check_submit(sub, 2, 2018, 2, r, b"\x11\x12")
            K.check_find(r, (b"010", b"101", b"2018-04-10", K.ID88))
            K.check_evaluation(r, (b"010", b"101", b"2018-04-10", K.ID88), b"2018-04-16")
        return s
    c0 = row(case, O.CASE_WIDTHS)
    n = 0
    for i, w in enumerate(O.CASE_WIDTHS):
        for v in values(w):
            f = case[:]
            f[i] = v
            n += 1
            go([row(f, O.CASE_WIDTHS)], [], n=n)
    for taken in (0, O.day(b"1900-12-31"), O.day(b"1901-01-01"), O.day(b"2099-12-31")):     # 11 at the borders of a year
        for y in (1879, 1880, 1899, 1900, 1901, 1902, 2098, 2099, 2100, 0, 4095):
            f = case[:]
            f[4], f[93] = taken, y
            go([row(f, O.CASE_WIDTHS)], [])
    for p in (b"000", b"0000", b"00000", b"00", b"", b"0", b"0\0" + b"0", b"000\0" + b"1", b"\0" + b"000", b"001", b"100", b"00\0\0" + b"1", b"12\0" + b"4"):
        f = case[:]
        f[94:99] = list(p.ljust(5, b"\0"))
        go([row(f, O.CASE_WIDTHS)], [])
    for ev in kept + evs:
        e0 = O.unpack(O.pack_event(k, ev), O.EVENT_WIDTHS)
        for i, w in enumerate(O.EVENT_WIDTHS):
            if 5 < i < 91:
                continue
            for v in values(w):
                f = e0[:]
                f[i] = v
                n += 1
                go([c0], [row(f, O.EVENT_WIDTHS)], n=n)
        for kind in range(4):                                   # kind with code, accesses, conferma, end together
            for code in range(128):
                for acc, conf in ((0, 0), (0, 1), (7, 0), (0, 2), (0, 3), (99, 0), (100, 0)):
                    f = e0[:]
                    f[93], f[95], f[97], f[98] = kind, code, acc, conf
                    n += 1
                    go([c0], [row(f, O.EVENT_WIDTHS)], n=n)
        for odd in K.odd_values(random.Random(str(ev))):        # an evaluation, and what is nearly one, behind this event's fields
            said = 0 if odd[6] else 3
            if go([c0], [row(K.odd_row(e0, odd), O.EVENT_WIDTHS)], n=n) != said:
                K.diff("words", (odd[0],), (said,), ())
    e = [O.pack_event(k, x) for x in (kept[0], evs[1])]
    full = bytes([0, 1, 0, 2]) + c0 + e[0] + e[1]
    for length in range(0, len(full) + 200):                    # cut and padded to every length
        r = full[:length].ljust(length, b"\0")
        K.check_sound(r)
        K.check_submit(sub, 2, 2018, 2, r, b"\x11\x12")
    for a in list(range(0, 6)) + [255, 256, 4096, 65535]:       # counts
        for b in list(range(0, 6)) + [255, 256, 4096, 65535, 65534]:
            for pad in (0, 1, O.ROW - 1, O.ROW, O.ROW + 1, 2 * O.ROW):
                r = a.to_bytes(2, "big") + b.to_bytes(2, "big") + full[4:] + bytes(pad)
                K.check_sound(r)
    for rows in (1, 2, 3):                                      # a last row partly or wholly outside the room
        for cut in (1, 45, O.ROW - 1, O.ROW):
            K.check_sound(full[:4 + O.ROW * rows - cut])
    for i, x in enumerate(evs):                                 # pairs of events: 25 to 28 and 23 over borders
        for y in evs:
            for dx in range(-6, 4):
                for dy in range(-6, 4):
                    for lx, ly in ((0, 0), (1, 0), (0, 1), (2, 2), (-1, 0), (None, 0), (0, None), (None, None)):
                        def at(z, d, l):
                            day = z[1] + d
                            return (z[0], day, z[2], O.NO_END if z[0] != 2 or l is None else day + l, *z[4:])
                        rows = sorted([O.pack_event(k, at(x, dx, lx)), O.pack_event(k, at(y, dy, ly))])
                        if (lx, ly) == (0, 0) or 2 in (x[0], y[0]):
                            go([c0], rows, n=1)
    for x in evs:                                               # two rows of one day that differ in the code: any two of its kind's list, in both orders
        for a in sorted(O.CODES[x[0]]):
            for b in sorted(O.CODES[x[0]]):
                go([c0], [O.pack_event(k, (*x[:2], code, *x[3:])) for code in (a, b)], n=a)
        for end in [x[3], O.NO_END] + list(range(0, O.LAST_DAY + 1, 97)):       # the layout before E2, with an end date of any day
            go([c0], [K.old_layout(O.pack_event(k, (*x[:3], end, *x[4:])))], n=end)


if __name__ == "__main__":
    t0 = time.time()
    main()
    print(json.dumps({"generator": "fields", "seed": 0, "seconds": round(time.time() - t0), "counts": dict(sorted(K.C.items()))}))
    sys.exit(K.C["diff"] > 0)
