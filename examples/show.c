/*
 * show [--all] FILE: everything that a table says, by the names of nbft.h. All
 * records are read by one call. What is shown, and how, stands in the rows below:
 * columns of the tables, then lines for each record, of which those that say
 * nothing are left out unless all are asked for. It prints what nbft_show prints,
 * as long as no value has a thousand characters. This file is C89.
 */
#include <nbft.h>
#include <stdio.h>
#include <string.h>

#include "whole_file.h"

static struct nbft_entry entries[NBFT_MOST_ENTRIES];
static unsigned entry_count;

/* The value that is being put together: four characters for a byte of the longest object, and some more. */
static char value[4 * 65536 + 64];
static size_t width;

static void add_character(int character)
{
    if (width < sizeof value)
        value[width++] = (char)character;
}

static void add(const char *words)
{
    while (*words != '\0')
        add_character(*words++);
}

static void add_number(unsigned long number)
{
    char digits[24];

    sprintf(digits, "%lu", number);
    add(digits);
}

/* With as many digits as are asked for, or with as few as there can be. */
static void add_hex(unsigned long number, int digits)
{
    char text[24];

    sprintf(text, "%0*lx", digits, number);
    add(text);
}

static void add_hexes(const uint8_t *bytes, size_t length)
{
    while (length-- > 0)
        add_hex(*bytes++, 2);
}

/* What is no printable ASCII is shown by its number. */
static void add_escaped(const uint8_t *bytes, size_t length)
{
    for (; length > 0; bytes++, length--) {
        if (*bytes >= ' ' && *bytes <= '~' && *bytes != '\\') {
            add_character(*bytes);
        } else {
            add("\\x");
            add_hex(*bytes, 2);
        }
    }
}

static void add_uuid(const uint8_t *bytes)
{
    static const size_t parts[] = {4, 2, 2, 2, 6};
    size_t part;

    for (part = 0; part < sizeof parts / sizeof *parts; part++) {
        if (part > 0)
            add_character('-');
        add_hexes(bytes, parts[part]);
        bytes += parts[part];
    }
}

/* ---- addresses of the Internet, as inet_ntop prints them, and a dotted quad where IPv4 is mapped */

#define GROUPS        8u
#define ADDRESS_BYTES sizeof(((struct nbft_info_record *)NULL)->ip_address)

static unsigned group(const uint8_t *address, unsigned at)
{
    return address[2 * at] * 256u + address[2 * at + 1];
}

static unsigned zeros_from(const uint8_t *address, unsigned at)
{
    unsigned count = 0;

    while (at + count < GROUPS && group(address, at + count) == 0)
        count++;
    return count;
}

static void add_groups(const uint8_t *address, unsigned from, unsigned to)
{
    unsigned at;

    for (at = from; at < to; at++) {
        if (at > from)
            add_character(':');
        add_hex(group(address, at), 1);
    }
}

static void add_quad(const uint8_t *octets)
{
    unsigned at;

    for (at = 0; at < 4; at++) {
        if (at > 0)
            add_character('.');
        add_number(octets[at]);
    }
}

static void add_address(const uint8_t *address)
{
    const uint8_t *quad = address + ADDRESS_BYTES - 4;
    unsigned at, run = 0, start = 0, first = zeros_from(address, 0);

    for (at = 0; at < GROUPS; at++) {
        if (zeros_from(address, at) > run) {
            run = zeros_from(address, at);
            start = at;
        }
    }
    if (first == 5 && group(address, 5) == 0xFFFF) {
        add_quad(quad);
    } else if (first == 6) {
        add("::");
        add_quad(quad);
    } else if (run < 2) {
        add_groups(address, 0, GROUPS);
    } else {
        add_groups(address, 0, start);
        add("::");
        add_groups(address, start + run, GROUPS);
    }
}

/* ---- rows: what is read by name, and how it is put together */

struct row {
    const char *title;
    int (*put)(const struct row *row, const struct nbft_entry *entry); /* whether it says something */
    uint8_t kind;             /* of the record that has it, which may be one in the heap */
    size_t at, length;        /* of a field its bytes in the record's image; of an object the number of its place */
    unsigned long mask;       /* of a field of some bits */
    const char *const *words; /* for what these bits say */
    int detail;               /* whether it is shown only where all is asked for */
};

static const uint8_t *bytes_of(const struct row *row, const struct nbft_entry *entry)
{
    return entry->image.bytes + row->at;
}

static unsigned long number_of(const struct row *row, const struct nbft_entry *entry)
{
    return (unsigned long)nbft_get(bytes_of(row, entry), row->length);
}

/* Moved to the lowest bit. */
static unsigned long bits_of(const struct row *row, const struct nbft_entry *entry)
{
    unsigned long lowest = row->mask & (~row->mask + 1);

    return (number_of(row, entry) & row->mask) / lowest;
}

static const uint8_t *object_of(const struct row *row, const struct nbft_entry *entry, size_t *length)
{
    const struct nbft_place *place = &entry->places[row->at];

    *length = place->length;
    return table + place->start;
}

static int put_position(const struct row *row, const struct nbft_entry *entry)
{
    (void)row;
    add_number(entry->position);
    return 1;
}

static int put_number(const struct row *row, const struct nbft_entry *entry)
{
    unsigned long number = number_of(row, entry);

    add_number(number);
    return number != 0;
}

static int put_index(const struct row *row, const struct nbft_entry *entry)
{
    if (number_of(row, entry) != 0)
        return put_number(row, entry);
    add("none");
    return 0;
}

static int put_if_there(const struct row *row, const struct nbft_entry *entry)
{
    if (entry->image_length != 0)
        return put_number(row, entry);
    add("none");
    return 0;
}

static int put_flag(const struct row *row, const struct nbft_entry *entry)
{
    int set = bits_of(row, entry) != 0;

    add(set ? "yes" : "no");
    return set;
}

static int put_choice(const struct row *row, const struct nbft_entry *entry)
{
    unsigned long chosen = bits_of(row, entry);

    add(row->words[chosen]);
    return chosen != 0;
}

static int put_transport(const struct row *row, const struct nbft_entry *entry)
{
    if (number_of(row, entry) != 3)
        return put_number(row, entry);
    add("tcp");
    return 1;
}

static int put_uuid(const struct row *row, const struct nbft_entry *entry)
{
    add_uuid(bytes_of(row, entry));
    return 1;
}

static int put_hex(const struct row *row, const struct nbft_entry *entry)
{
    add_hexes(bytes_of(row, entry), row->length);
    return 1;
}

static int put_name(const struct row *row, const struct nbft_entry *entry)
{
    add_escaped(bytes_of(row, entry), row->length);
    return 1;
}

static int put_address(const struct row *row, const struct nbft_entry *entry)
{
    add_address(bytes_of(row, entry));
    return zeros_from(bytes_of(row, entry), 0) != GROUPS;
}

static int put_server(const struct row *row, const struct nbft_entry *entry)
{
    return (entry->image.info.flags & NBFT_INFO_FLAG_DHCP_OVERRIDE) && put_address(row, entry);
}

static int put_mac(const struct row *row, const struct nbft_entry *entry)
{
    size_t at;

    for (at = 0; at < row->length; at++) {
        if (at > 0)
            add_character(':');
        add_hex(bytes_of(row, entry)[at], 2);
    }
    return 1;
}

/* Segment, bus, device and function. */
static int put_pci(const struct row *row, const struct nbft_entry *entry)
{
    unsigned long id = number_of(row, entry);
    char text[24];

    sprintf(text, "%04lx:%02lx:%02lx.%lx", id >> 16, id >> 8 & 0xFF, id >> 3 & 0x1F, id & 7);
    add(text);
    return 1;
}

static int put_nid_type(const struct row *row, const struct nbft_entry *entry)
{
    static const char *const types[] = {"0", "eui64", "nguid", "uuid"};
    unsigned long type = number_of(row, entry);

    if (type >= sizeof types / sizeof *types)
        return put_number(row, entry);
    add(types[type]);
    return type != 0;
}

/* As its type has it; nothing where that has no name. */
static int put_nid(const struct row *row, const struct nbft_entry *entry)
{
    switch (entry->image.ssns.nid_type) {
    case 1: add_hexes(bytes_of(row, entry), 8); return 1;
    case 2: return put_hex(row, entry);
    case 3: return put_uuid(row, entry);
    default: return 0;
    }
}

static int put_queue_size(const struct row *row, const struct nbft_entry *entry)
{
    if (NBFT_GET(entry->image.ssns_extended.flags) & NBFT_SSNS_EXTENDED_FLAG_QUEUE_SIZE_SET)
        return put_number(row, entry);
    add_number(0);
    return 0;
}

/* A text that is there and empty must not look like one that is absent. */
static int put_text(const struct row *row, const struct nbft_entry *entry)
{
    size_t length;
    const uint8_t *text = object_of(row, entry, &length);

    if (!entry->places[row->at].present)
        return 0;
    if (length == 0)
        add("\"\"");
    add_escaped(text, length);
    return 1;
}

static int put_bytes(const struct row *row, const struct nbft_entry *entry)
{
    size_t length;
    const uint8_t *bytes = object_of(row, entry, &length);

    add_hexes(bytes, length);
    return length != 0;
}

/* What is long enough for an address is one. */
static int put_reached(const struct row *row, const struct nbft_entry *entry)
{
    size_t length;
    const uint8_t *bytes = object_of(row, entry, &length);

    if (length < ADDRESS_BYTES)
        add_escaped(bytes, length);
    else
        add_address(bytes);
    return 1;
}

/* Without the zero that stands last. */
static int put_service(const struct row *row, const struct nbft_entry *entry)
{
    size_t length;
    const uint8_t *bytes = object_of(row, entry, &length);

    if (length > 0 && bytes[length - 1] == 0)
        length--;
    add_escaped(bytes, length);
    return 1;
}

/* The positions of a list, behind one that leads, where there is one, and without it. */
static int put_positions(const struct row *row, const struct nbft_entry *entry, unsigned leads)
{
    size_t length, at;
    const uint8_t *positions = object_of(row, entry, &length);

    if (leads != 0)
        add_number(leads);
    for (at = 0; at < length; at++) {
        if (positions[at] == leads)
            continue;
        if (width > 0)
            add_character(',');
        add_number(positions[at]);
    }
    return width > 0;
}

static int put_secondary(const struct row *row, const struct nbft_entry *entry)
{
    return put_positions(row, entry, 0);
}

static int put_hfis(const struct row *row, const struct nbft_entry *entry)
{
    return put_positions(row, entry, entry->image.ssns.primary_hfi_index);
}

/* ---- what is shown of each record */

#define MEMBER(record, member) \
    offsetof(struct nbft_##record##_record, member), sizeof(((struct nbft_##record##_record *)NULL)->member)
#define FIELD(title, put, kind, record, member)   {title, put, kind, MEMBER(record, member), 0, NULL, 0}
#define DETAIL(title, put, kind, record, member)  {title, put, kind, MEMBER(record, member), 0, NULL, 1}
#define FLAG(title, kind, record, member, mask)   {title, put_flag, kind, MEMBER(record, member), mask, NULL, 0}
#define CHOICE(title, kind, record, member, mask, words) \
    {title, put_choice, kind, MEMBER(record, member), mask, words, 0}
#define OBJECT(title, put, kind, place)           {title, put, kind, place, 0, 0, NULL, 0}
#define OBJECT_DETAIL(title, put, kind, place)    {title, put, kind, place, 0, 0, NULL, 1}

static const char *const primary[] = {"not indicated", "unselected", "selected"};
static const char *const availability[] = {"not indicated", "available", "unavailable"};
static const char *const wanted[] = {"not supported", "not required", "required"};
static const char *const chosen_by[] = {"nobody", "driver", "administrator"};

static const struct row header_columns[] = {
    FIELD("OEM ID", put_name, NBFT_HEADER, header, oem_id),
    FIELD("OEM Table ID", put_name, NBFT_HEADER, header, oem_table_id),
    FIELD("OEM Revision", put_number, NBFT_HEADER, header, oem_revision),
    FIELD("Creator ID", put_name, NBFT_HEADER, header, creator_id),
    FIELD("Creator Revision", put_number, NBFT_HEADER, header, creator_revision),
    OBJECT("Driver Signature", put_text, NBFT_HEADER, NBFT_HEADER_DRIVER_SIGNATURE_PLACE)};

static const struct row host_columns[] = {
    FIELD("Host ID", put_uuid, NBFT_HOST, host, id),
    OBJECT("NQN", put_text, NBFT_HOST, NBFT_HOST_NQN_PLACE)};

static const struct row host_lines[] = {
    FLAG("host ID configured", NBFT_HOST, host, flags, NBFT_HOST_FLAG_ID_CONFIGURED),
    FLAG("host NQN configured", NBFT_HOST, host, flags, NBFT_HOST_FLAG_NQN_CONFIGURED),
    DETAIL("flags", put_number, NBFT_HOST, host, flags),
    CHOICE("primary administrative host", NBFT_HOST, host, flags, NBFT_HOST_FLAG_PRIMARY_MASK, primary)};

static const struct row subsystem_columns[] = {
    FIELD("Idx", put_position, NBFT_SSNS, ssns, index),
    OBJECT("NQN", put_text, NBFT_SSNS, NBFT_SSNS_NQN_PLACE),
    FIELD("Trsp", put_transport, NBFT_SSNS, ssns, transport_type),
    OBJECT("Address", put_reached, NBFT_SSNS, NBFT_SSNS_ADDRESS_PLACE),
    OBJECT("SvcId", put_service, NBFT_SSNS, NBFT_SSNS_SERVICE_PLACE),
    OBJECT("HFIs", put_hfis, NBFT_SSNS, NBFT_SSNS_SECONDARY_HFI_INDEXES_PLACE)};

static const struct row subsystem_lines[] = {
    FIELD("port ID", put_number, NBFT_SSNS, ssns, port_id),
    FIELD("NID type", put_nid_type, NBFT_SSNS, ssns, nid_type),
    FIELD("NID", put_nid, NBFT_SSNS, ssns, nid),
    FIELD("controller ID", put_number, NBFT_SSNS_EXTENDED, ssns_extended, controller_id),
    FIELD("admin queue size", put_queue_size, NBFT_SSNS_EXTENDED, ssns_extended, admin_queue_size),
    OBJECT("DHCP root path", put_text, NBFT_SSNS_EXTENDED, NBFT_SSNS_EXTENDED_ROOT_PATH_PLACE),
    FLAG("header digest", NBFT_SSNS, ssns, transport_flags, NBFT_SSNS_TRANSPORT_FLAG_HEADER_DIGEST),
    FLAG("data digest", NBFT_SSNS, ssns, transport_flags, NBFT_SSNS_TRANSPORT_FLAG_DATA_DIGEST),
    FLAG("discovered", NBFT_SSNS, ssns, flags, NBFT_SSNS_FLAG_DISCOVERED),
    DETAIL("flags", put_number, NBFT_SSNS, ssns, flags),
    DETAIL("transport flags", put_number, NBFT_SSNS, ssns, transport_flags),
    FLAG("not bootable", NBFT_SSNS, ssns, flags, NBFT_SSNS_FLAG_NOT_BOOTABLE),
    FLAG("root path used", NBFT_SSNS, ssns, flags, NBFT_SSNS_FLAG_ROOT_PATH),
    FLAG("separate discovery", NBFT_SSNS, ssns, flags, NBFT_SSNS_FLAG_SEPARATE_DISCOVERY),
    CHOICE("availability", NBFT_SSNS, ssns, flags, NBFT_SSNS_FLAG_AVAILABILITY_MASK, availability),
    FLAG("transport flags used", NBFT_SSNS, ssns, transport_flags, NBFT_SSNS_TRANSPORT_FLAG_IN_USE),
    FIELD("discovery", put_index, NBFT_SSNS, ssns, discovery_index),
    FIELD("security", put_index, NBFT_SSNS, ssns, security_index),
    DETAIL("primary HFI", put_number, NBFT_SSNS, ssns, primary_hfi_index),
    OBJECT_DETAIL("secondary HFIs", put_secondary, NBFT_SSNS, NBFT_SSNS_SECONDARY_HFI_INDEXES_PLACE),
    OBJECT_DETAIL("address bytes", put_bytes, NBFT_SSNS, NBFT_SSNS_ADDRESS_PLACE),
    OBJECT_DETAIL("service bytes", put_bytes, NBFT_SSNS, NBFT_SSNS_SERVICE_PLACE),
    FIELD("NSID", put_number, NBFT_SSNS, ssns, nsid),
    DETAIL("NID type number", put_number, NBFT_SSNS, ssns, nid_type),
    DETAIL("NID bytes", put_hex, NBFT_SSNS, ssns, nid),
    DETAIL("extended info flags", put_if_there, NBFT_SSNS_EXTENDED, ssns_extended, flags),
    DETAIL("extended controller ID", put_if_there, NBFT_SSNS_EXTENDED, ssns_extended, controller_id),
    DETAIL("extended admin queue size", put_if_there, NBFT_SSNS_EXTENDED, ssns_extended, admin_queue_size)};

static const struct row hfi_columns[] = {
    FIELD("Idx", put_position, NBFT_HFI, hfi, index),
    FIELD("Trsp", put_transport, NBFT_HFI, hfi, transport_type),
    FIELD("PCI Addr", put_pci, NBFT_HFI_INFO, info, pci_routing_id),
    FIELD("MAC Addr", put_mac, NBFT_HFI_INFO, info, mac),
    FLAG("DHCP", NBFT_HFI_INFO, info, flags, NBFT_INFO_FLAG_DHCP_OVERRIDE),
    FIELD("IP Addr", put_address, NBFT_HFI_INFO, info, ip_address),
    FIELD("Mask", put_number, NBFT_HFI_INFO, info, prefix),
    FIELD("Gateway", put_address, NBFT_HFI_INFO, info, gateway),
    FIELD("DNS", put_address, NBFT_HFI_INFO, info, primary_dns)};

static const struct row hfi_lines[] = {
    FIELD("VLAN", put_number, NBFT_HFI_INFO, info, vlan),
    FIELD("IP origin", put_number, NBFT_HFI_INFO, info, ip_origin),
    FIELD("route metric", put_number, NBFT_HFI_INFO, info, route_metric),
    FIELD("secondary DNS", put_address, NBFT_HFI_INFO, info, secondary_dns),
    FIELD("DHCP server", put_server, NBFT_HFI_INFO, info, dhcp_server),
    OBJECT("host name", put_text, NBFT_HFI_INFO, NBFT_INFO_HOST_NAME_PLACE),
    FLAG("default route", NBFT_HFI_INFO, info, flags, NBFT_INFO_FLAG_GLOBAL_ROUTE),
    DETAIL("info version", put_number, NBFT_HFI_INFO, info, info_version),
    DETAIL("flags", put_number, NBFT_HFI_INFO, info, flags),
    FLAG("autoconfigured", NBFT_HFI_INFO, info, flags, NBFT_INFO_FLAG_AUTOCONFIGURED),
    DETAIL("record flags", put_number, NBFT_HFI, hfi, flags),
    DETAIL("extended info flags", put_if_there, NBFT_HFI_EXTENDED, hfi_extended, flags),
    OBJECT("IAID", put_bytes, NBFT_HFI_EXTENDED, NBFT_HFI_EXTENDED_IAID_PLACE),
    OBJECT("DUID", put_bytes, NBFT_HFI_EXTENDED, NBFT_HFI_EXTENDED_DUID_PLACE)};

static const struct row discovery_columns[] = {
    FIELD("Idx", put_position, NBFT_DISCOVERY, discovery, index),
    OBJECT("URI", put_text, NBFT_DISCOVERY, NBFT_DISCOVERY_ADDRESS_PLACE),
    OBJECT("NQN", put_text, NBFT_DISCOVERY, NBFT_DISCOVERY_NQN_PLACE)};

static const struct row discovery_lines[] = {
    FIELD("security", put_index, NBFT_DISCOVERY, discovery, security_index),
    FIELD("HFI", put_number, NBFT_DISCOVERY, discovery, hfi_index),
    DETAIL("flags", put_number, NBFT_DISCOVERY, discovery, flags)};

static const struct row security_columns[] = {
    FIELD("Idx", put_position, NBFT_SECURITY, security, index),
    FIELD("Flags", put_number, NBFT_SECURITY, security, flags),
    OBJECT("Channels", put_bytes, NBFT_SECURITY, NBFT_SECURITY_ALGORITHMS_PLACE),
    OBJECT("Auths", put_bytes, NBFT_SECURITY, NBFT_SECURITY_PROTOCOLS_PLACE),
    OBJECT("Ciphers", put_bytes, NBFT_SECURITY, NBFT_SECURITY_CIPHER_SUITES_PLACE),
    OBJECT("Groups", put_bytes, NBFT_SECURITY, NBFT_SECURITY_DH_GROUPS_PLACE),
    OBJECT("Hashes", put_bytes, NBFT_SECURITY, NBFT_SECURITY_HASH_FUNCTIONS_PLACE),
    OBJECT("Keypath", put_text, NBFT_SECURITY, NBFT_SECURITY_KEYPATH_PLACE)};

static const struct row security_lines[] = {
    FIELD("secret type", put_number, NBFT_SECURITY, security, secret_type),
    CHOICE("authentication", NBFT_SECURITY, security, flags, NBFT_SECURITY_FLAG_IN_BAND_MASK, wanted),
    CHOICE("secure channel", NBFT_SECURITY, security, flags, NBFT_SECURITY_FLAG_CHANNEL_MASK, wanted),
    CHOICE("protocols chosen by", NBFT_SECURITY, security, flags, NBFT_SECURITY_FLAG_PROTOCOLS_MASK, chosen_by),
    CHOICE("algorithms chosen by", NBFT_SECURITY, security, flags, NBFT_SECURITY_FLAG_ALGORITHMS_MASK, chosen_by)};

struct rows {
    const struct row *first;
    size_t count;
};
#define ROWS(array) {array, sizeof(array) / sizeof *(array)}

static const struct part {
    uint8_t kind;
    const char *heading, *name; /* of the table, and of one record */
    struct rows columns, lines;
} parts[] = {{NBFT_HEADER, "NBFT Header", "header", ROWS(header_columns), {NULL, 0}},
             {NBFT_HOST, "NBFT Host", "host", ROWS(host_columns), ROWS(host_lines)},
             {NBFT_SSNS, "NBFT Subsystems", "subsystem", ROWS(subsystem_columns), ROWS(subsystem_lines)},
             {NBFT_HFI, "NBFT HFIs", "hfi", ROWS(hfi_columns), ROWS(hfi_lines)},
             {NBFT_DISCOVERY, "NBFT Discovery Controllers", "discovery", ROWS(discovery_columns),
              ROWS(discovery_lines)},
             {NBFT_SECURITY, "NBFT Security", "security", ROWS(security_columns), ROWS(security_lines)}};
#define PARTS        (sizeof parts / sizeof *parts)
#define MOST_COLUMNS 9

/* ---- how it is printed */

/* NULL behind the last position. */
static const struct nbft_entry *entry_of(uint8_t kind, unsigned position)
{
    unsigned at;

    for (at = 0; at < entry_count; at++)
        if (entries[at].kind == kind && entries[at].position == position)
            return &entries[at];
    return NULL;
}

static unsigned first_position(const struct part *part)
{
    return part->kind < NBFT_HFI ? 0 : 1;
}

/* The value of a row; whether it says something. */
static int put(const struct row *row, unsigned position)
{
    width = 0;
    return row->put(row, entry_of(row->kind, position));
}

static void print_repeated(int character, size_t from, size_t to)
{
    for (; from < to; from++)
        putchar(character);
}

static void print_value(size_t room)
{
    fwrite(value, 1, width, stdout);
    print_repeated(' ', width, room);
}

/* As wide as the widest of the titles and the values of used records. */
static void measure(const struct part *part, size_t *widths)
{
    const struct nbft_entry *entry;
    unsigned position;
    size_t at;

    for (at = 0; at < part->columns.count; at++) {
        widths[at] = strlen(part->columns.first[at].title);
        for (position = first_position(part); (entry = entry_of(part->kind, position)) != NULL; position++) {
            if (!entry->used)
                continue;
            put(&part->columns.first[at], position);
            if (width > widths[at])
                widths[at] = width;
        }
    }
}

static void print_titles(const struct part *part, const size_t *widths)
{
    size_t at;

    for (at = 0; at < part->columns.count; at++)
        printf("%s%-*s", at > 0 ? "|" : "", (int)widths[at], part->columns.first[at].title);
    putchar('\n');
    for (at = 0; at < part->columns.count; at++) {
        print_repeated('+', at > 0 ? 0 : 1, 1);
        print_repeated('-', 0, widths[at]);
    }
    putchar('\n');
}

static void print_columns(const struct part *part, const struct nbft_entry *entry, const size_t *widths)
{
    size_t at;

    if (!entry->used) {
        printf("%-*u|unused\n", (int)widths[0], entry->position);
        return;
    }
    for (at = 0; at < part->columns.count; at++) {
        print_repeated('|', at > 0 ? 0 : 1, 1);
        put(&part->columns.first[at], entry->position);
        print_value(widths[at]);
    }
    putchar('\n');
}

/* A heading above no records would say nothing. */
static void print_table(const struct part *part)
{
    const struct nbft_entry *entry;
    unsigned position = first_position(part);
    size_t widths[MOST_COLUMNS];

    if (entry_of(part->kind, position) == NULL)
        return;
    printf("%s%s:\n\n", part == parts ? "" : "\n", part->heading);
    measure(part, widths);
    print_titles(part, widths);
    for (; (entry = entry_of(part->kind, position)) != NULL; position++)
        print_columns(part, entry, widths);
}

/* The name of a record stands above its first line. */
static void print_lines(const struct part *part, unsigned position, int all)
{
    const struct row *row = part->lines.first, *end = row + part->lines.count;
    int none = 1;

    for (; row < end; row++) {
        int says_something = put(row, position);

        if (!all && (row->detail || !says_something))
            continue;
        if (none && position > 0)
            printf("\n%s %u:\n", part->name, position);
        else if (none)
            printf("\n%s:\n", part->name);
        none = 0;
        printf("  %s: ", row->title);
        print_value(0);
        putchar('\n');
    }
}

static void print_records(const struct part *part, int all)
{
    const struct nbft_entry *entry;
    unsigned position;

    for (position = first_position(part); (entry = entry_of(part->kind, position)) != NULL; position++)
        if (entry->used)
            print_lines(part, position, all);
}

static int print_all(size_t length, int all)
{
    static const char *const kinds[] = {"header", "control", "host", "HFI", "SSNS", "security", "discovery"};
    uint64_t result = nbft_records(table, length, NBFT_HEADER, 0, NBFT_HFI_EXTENDED, entries, sizeof entries);
    uint32_t answer = NBFT_RECORDS_ANSWER(result);
    size_t part;

    if (answer != NBFT_DONE) {
        printf("%u %u %u\n", NBFT_NUMBER(answer), NBFT_KIND(answer), NBFT_POSITION(answer));
        printf("%s: %s", nbft_words(answer), kinds[NBFT_KIND(answer)]);
        if (NBFT_POSITION(answer) != 0)
            printf(" %u", NBFT_POSITION(answer));
        putchar('\n');
        return 1;
    }
    entry_count = NBFT_RECORDS_WRITTEN(result);
    for (part = 0; part < PARTS; part++)
        print_table(&parts[part]);
    for (part = 0; part < PARTS; part++)
        print_records(&parts[part], all);
    return 0;
}

int main(int count, char **words)
{
    int all = count > 1 && strcmp(words[1], "--all") == 0;
    size_t length;

    if (count != 2 + all || (length = read_whole(words[1 + all])) == 0) {
        fprintf(stderr, "usage: show [--all] FILE, which has bytes to read\n");
        return 2;
    }
    return print_all(length, all);
}
