"""Images as bytes of version 1 and of version 2, and what migration makes of one: a second writing, from docs/FORMATS.md, by which other scripts judge what the program
writes."""

import struct

from image_reading import LONGEST_FILE, Broken, read_image


def numbers(form, *values):
    return struct.pack("<" + form, *values)


def text(name):
    return numbers("B", len(name)) + name


def location_bytes(location):
    if location is None:
        return numbers("B", 0)
    kind, number = location
    return numbers("BI", 1, number) if kind == "frame" else numbers("BB", 2, number)


def procedure_bytes(procedure, places=None):
    """The fields of a procedure up to its continuations; in version 2 its variables have places."""
    out = bytearray(numbers("Q", procedure.code) + text(procedure.name) + numbers("II", procedure.frame, procedure.return_at))
    out += numbers("B", len(procedure.saved)) + b"".join(numbers("BI", register, offset) for register, offset in procedure.saved)
    out += numbers("H", len(procedure.variables))
    for n, (width, is_invariant, kind) in enumerate(procedure.variables):
        out += numbers("BB", width, is_invariant) + text(kind)
        if places is not None:
            out += location_bytes(places[n])
    out += numbers("H", len(procedure.stack_labels)) + b"".join(numbers("I", offset) for offset in procedure.stack_labels)
    out += numbers("H", len(procedure.continuations))
    for it in procedure.continuations:
        out += numbers("IQB", it.pair, it.code, len(it.parameters)) + b"".join(numbers("H", n) for n in it.parameters)
    return bytes(out)


def site_bytes(site, locations):
    """The fields of a site from its number on, with these bytes for where its variables are."""

    def continuation(it):
        return numbers("H", next(n for n, one in enumerate(site.procedure.continuations) if one is it))

    out = bytearray(numbers("IBB", site.number, site.never_returns + 2 * site.aborts, site.yielded))
    out += numbers("B", len(site.results)) + bytes(site.results)
    out += numbers("B", len(site.alternates)) + b"".join(map(continuation, site.alternates))
    out += numbers("H", len(site.unwinds)) + b"".join(continuation(it) + numbers("Q", landing) for it, landing in site.unwinds)
    out += numbers("H", len(site.cuts)) + b"".join(map(continuation, site.cuts))
    out += locations
    return bytes(out + numbers("H", len(site.spans)) + b"".join(numbers("QQ", token, value) for token, value in site.spans))


def live_bytes(locations):
    """A bit for each variable, which is 1 where it is live."""
    bits = sum(1 << n for n, location in enumerate(locations) if location is not None)
    return bits.to_bytes((len(locations) + 7) // 8, "little")


def places_of(procedure, sites):
    """Where each variable of a procedure is at the first of its sites at which it is live."""
    return [next((site.locations[n] for _, site in sites if site.locations[n] is not None), None) for n in range(len(procedure.variables))]


def sites_by_procedure(image):
    """The sites of each procedure with their return addresses, in the order of these."""
    found = {procedure.code: [] for procedure in image.procedures}
    for address, site in image.sites.items():
        found[site.procedure.code].append((address, site))
    return [found[procedure.code] for procedure in image.procedures]


def first_tables(image):
    """The records of procedures and sites of version 1."""
    place = {procedure.code: n for n, procedure in enumerate(image.procedures)}
    out = bytearray(b"".join(map(procedure_bytes, image.procedures)))
    for address, site in image.sites.items():
        out += numbers("QI", address, place[site.procedure.code]) + site_bytes(site, b"".join(map(location_bytes, site.locations)))
    return bytes(out)


def second_tables(image):
    """The records of procedures of version 2, with their sites in them."""
    out = bytearray()
    for procedure, sites in zip(image.procedures, sites_by_procedure(image)):
        out += procedure_bytes(procedure, places_of(procedure, sites)) + numbers("I", len(sites))
        for address, site in sites:
            out += numbers("Q", address) + site_bytes(site, live_bytes(site.locations))
        out += numbers("B", 0)
    return bytes(out)


def image_bytes(image, version):
    """The bytes that spell an image in a version, in which each variable has one place if that is version 2."""
    tables = first_tables(image) if version == 1 else second_tables(image)
    labels = b"".join(text(name) + numbers("Q", address) for name, address in image.labels.items())
    registers = b"".join(numbers("B", width) + text(name) for name, width in image.registers.items())
    return image.header[:4] + numbers("I", version) + image.header[8:] + image.code + image.data + tables + labels + registers


def second_place(image):
    """The offset of the first field that has a variable at another place than an earlier site of its procedure, or None."""
    found = {}
    for site in image.sites.values():
        for n, (location, at) in enumerate(zip(site.locations, site.fields)):
            if location is not None and found.setdefault((site.procedure.code, n), location) != location:
                return at
    return None


def migrated(content):
    """The bytes of version 2 of an image of version 1, or the first rule that forbids it."""
    image = read_image(content)
    if image.version() != 1:
        raise Broken(51, 4)
    if (at := second_place(image)) is not None:
        raise Broken(57, at)
    made = image_bytes(image, 2)
    if len(made) > LONGEST_FILE:
        raise Broken(56, LONGEST_FILE)
    return made
