/*
 * A table with one record of every kind and all objects, told by the names of
 * nbft.h, and every field and object of it read by name: one by one, and by whole
 * records. This file is C89 and C++17, and calls nothing but the library: what C's
 * own functions are called by is not said in their headers.
 */
#include "answers.h"

static uint8_t state[NBFT_STATE_BYTES];
static uint8_t table[2048], form[2048], map[256];

/* What nbft_record reads, each at the place of its kind, and what nbft_records reads, one behind the other. */
static struct nbft_entry by_kind[NBFT_HFI_EXTENDED + 1], entries[12];

static struct nbft_header_fields header;
static struct nbft_host_record host;
static struct nbft_hfi_record hfi;
static struct nbft_info_record info;
static struct nbft_hfi_extended_record hfi_extended;
static struct nbft_ssns_record ssns;
static struct nbft_ssns_extended_record ssns_extended;
static struct nbft_security_record security;
static struct nbft_discovery_record discovery;

/* Objects are the first so many of these, and the list of secondary HFIs is the one index that there is. */
static const uint8_t letters[] = "abcdefghijklmnopqrst", one[] = {1};
static const uint8_t counts[4] = {1, 1, 1, 1};

/* What a field that is set below does not replace: no two bytes of a record are the same. */
#define FILL(record) fill((uint8_t *)&(record), sizeof(record))
static void fill(uint8_t *bytes, size_t length)
{
    size_t at;

    for (at = 0; at < length; at++)
        bytes[at] = (uint8_t)(at + 1);
}

static void fill_host(void)
{
    FILL(header);
    FILL(host);
    host.structure_id = NBFT_HOST;
    host.flags = NBFT_HOST_FLAG_VALID | NBFT_HOST_FLAG_ID_CONFIGURED | NBFT_HOST_FLAG_NQN_CONFIGURED |
                 2 << NBFT_HOST_FLAG_PRIMARY_SHIFT;
}

static void fill_hfi(void)
{
    FILL(hfi);
    hfi.structure_id = NBFT_HFI;
    hfi.index = 1;
    hfi.flags = NBFT_HFI_FLAG_VALID;
    hfi.transport_type = 3;
    FILL(info);
    info.structure_id = NBFT_HFI_INFO;
    info.version = 1;
    info.transport_type = 3;
    info.info_version = 2;
    NBFT_PUT(info.hfi_index, 1);
    info.flags = NBFT_INFO_FLAG_VALID | NBFT_INFO_FLAG_GLOBAL_ROUTE | NBFT_INFO_FLAG_DHCP_OVERRIDE;
    info.ip_origin = 3;
    FILL(hfi_extended);
    hfi_extended.structure_id = NBFT_HFI_EXTENDED;
    hfi_extended.version = 1;
    NBFT_PUT(hfi_extended.hfi_index, 1);
    NBFT_PUT(hfi_extended.flags, NBFT_HFI_EXTENDED_FLAG_VALID | NBFT_HFI_EXTENDED_FLAG_CLIENT_ID);
}

static void fill_ssns(void)
{
    FILL(ssns);
    ssns.structure_id = NBFT_SSNS;
    NBFT_PUT(ssns.index, 1);
    NBFT_PUT(ssns.flags, NBFT_SSNS_FLAG_VALID | NBFT_SSNS_FLAG_NOT_BOOTABLE | NBFT_SSNS_FLAG_SECURITY |
                             NBFT_SSNS_FLAG_ROOT_PATH | NBFT_SSNS_FLAG_EXTENDED_INFO |
                             NBFT_SSNS_FLAG_SEPARATE_DISCOVERY | NBFT_SSNS_FLAG_DISCOVERED |
                             2 << NBFT_SSNS_FLAG_AVAILABILITY_SHIFT);
    ssns.transport_type = 3;
    NBFT_PUT(ssns.transport_flags, NBFT_SSNS_TRANSPORT_FLAG_IN_USE | NBFT_SSNS_TRANSPORT_FLAG_HEADER_DIGEST |
                                       NBFT_SSNS_TRANSPORT_FLAG_DATA_DIGEST);
    ssns.discovery_index = ssns.security_index = ssns.primary_hfi_index = 1;
    FILL(ssns_extended);
    ssns_extended.structure_id = NBFT_SSNS_EXTENDED;
    ssns_extended.version = 1;
    NBFT_PUT(ssns_extended.ssns_index, 1);
    NBFT_PUT(ssns_extended.flags, NBFT_SSNS_EXTENDED_FLAG_VALID | NBFT_SSNS_EXTENDED_FLAG_QUEUE_SIZE_SET);
}

static void fill_others(void)
{
    FILL(security);
    security.structure_id = NBFT_SECURITY;
    security.index = 1;
    NBFT_PUT(security.flags, NBFT_SECURITY_FLAG_VALID | 1 << NBFT_SECURITY_FLAG_IN_BAND_SHIFT |
                                 2 << NBFT_SECURITY_FLAG_PROTOCOLS_SHIFT | 1 << NBFT_SECURITY_FLAG_CHANNEL_SHIFT |
                                 2 << NBFT_SECURITY_FLAG_ALGORITHMS_SHIFT | NBFT_SECURITY_FLAG_CIPHER_SUITES |
                                 NBFT_SECURITY_FLAG_DH_GROUPS | NBFT_SECURITY_FLAG_HASH_FUNCTIONS);
    security.secret_type = NBFT_SECRET_FLAG_KEYPATH;
    FILL(discovery);
    discovery.structure_id = NBFT_DISCOVERY;
    discovery.flags = NBFT_DISCOVERY_FLAG_VALID;
    discovery.index = discovery.hfi_index = discovery.security_index = 1;
}

/* How many calls are refused. */
static unsigned build(void)
{
    unsigned refused = 0;

    refused += nbft_begin(state, table, sizeof table, NBFT_BYTES(header), counts, letters, 1) != NBFT_DONE;
    refused += nbft_host(state, table, sizeof table, NBFT_BYTES(host), letters, 2) != NBFT_DONE;
    refused += nbft_hfi(state, table, sizeof table, NBFT_BYTES(hfi), NBFT_BYTES(info), letters, 3, 1,
                        NBFT_BYTES(hfi_extended), letters, 4, letters, 5) != NBFT_DONE;
    refused += nbft_ssns(state, table, sizeof table, NBFT_BYTES(ssns), letters, 6, letters, 7, one, 1, letters, 8,
                         NBFT_BYTES(ssns_extended), letters, 9) != NBFT_DONE;
    refused += nbft_security(state, table, sizeof table, NBFT_BYTES(security), letters, 10, letters, 11, letters, 12,
                             letters, 13, letters, 14, letters, 15) != NBFT_DONE;
    refused += nbft_discovery(state, table, sizeof table, NBFT_BYTES(discovery), letters, 16, letters, 17) !=
               NBFT_DONE;
    refused += NBFT_NUMBER(nbft_leave(state, table, sizeof table)) != NBFT_OUT_OF_TURN;
    refused += nbft_finish(state, table, sizeof table) != NBFT_DONE;
    return refused;
}

/* A field or an object by its name, the place of its member, the bytes that were told, and where its entry has it. */
struct part {
    uint8_t kind;
    uint32_t offset;
    size_t place, length;
    const uint8_t *told, *read;
    const struct nbft_place *stands;
};
#define READ(kind, record, member) NBFT_BYTES(by_kind[kind].image.record.member)
#define FIELD(kind, record, member, offset) \
    {kind, offset, offsetof(struct nbft_##record##_record, member), sizeof(record.member), NBFT_BYTES(record.member), \
     READ(kind, record, member), NULL}
#define OBJECT(kind, record, member, offset, told, length) \
    {kind, offset, offsetof(struct nbft_##record##_record, member), length, told, NULL, \
     &by_kind[kind].places[offset##_PLACE]}
#define FRONT(member, offset) \
    {NBFT_HEADER, offset, NBFT_HEADER_OEM_ID + offsetof(struct nbft_header_fields, member), sizeof(header.member), \
     NBFT_BYTES(header.member), READ(NBFT_HEADER, header, member), NULL}
#define COUNT(list, member, offset) \
    {NBFT_CONTROL_RECORD, offset, offsetof(struct nbft_control_record, member), 1, &counts[list], \
     READ(NBFT_CONTROL_RECORD, control, member), NULL}

static const struct part fields[] = {
    FRONT(oem_id, NBFT_HEADER_OEM_ID),
    FRONT(oem_table_id, NBFT_HEADER_OEM_TABLE_ID),
    FRONT(oem_revision, NBFT_HEADER_OEM_REVISION),
    FRONT(creator_id, NBFT_HEADER_CREATOR_ID),
    FRONT(creator_revision, NBFT_HEADER_CREATOR_REVISION),
    COUNT(0, hfi_count, NBFT_CONTROL_HFI_COUNT),
    COUNT(1, ssns_count, NBFT_CONTROL_SSNS_COUNT),
    COUNT(2, security_count, NBFT_CONTROL_SECURITY_COUNT),
    COUNT(3, discovery_count, NBFT_CONTROL_DISCOVERY_COUNT),
    FIELD(NBFT_HOST, host, structure_id, NBFT_HOST_STRUCTURE_ID),
    FIELD(NBFT_HOST, host, flags, NBFT_HOST_FLAGS),
    FIELD(NBFT_HOST, host, id, NBFT_HOST_ID),
    FIELD(NBFT_HFI, hfi, structure_id, NBFT_HFI_STRUCTURE_ID),
    FIELD(NBFT_HFI, hfi, index, NBFT_HFI_INDEX),
    FIELD(NBFT_HFI, hfi, flags, NBFT_HFI_FLAGS),
    FIELD(NBFT_HFI, hfi, transport_type, NBFT_HFI_TRANSPORT_TYPE),
    FIELD(NBFT_HFI_INFO, info, structure_id, NBFT_INFO_STRUCTURE_ID),
    FIELD(NBFT_HFI_INFO, info, version, NBFT_INFO_VERSION),
    FIELD(NBFT_HFI_INFO, info, transport_type, NBFT_INFO_TRANSPORT_TYPE),
    FIELD(NBFT_HFI_INFO, info, info_version, NBFT_INFO_INFO_VERSION),
    FIELD(NBFT_HFI_INFO, info, hfi_index, NBFT_INFO_HFI_INDEX),
    FIELD(NBFT_HFI_INFO, info, flags, NBFT_INFO_FLAGS),
    FIELD(NBFT_HFI_INFO, info, pci_routing_id, NBFT_INFO_PCI_ROUTING_ID),
    FIELD(NBFT_HFI_INFO, info, mac, NBFT_INFO_MAC),
    FIELD(NBFT_HFI_INFO, info, vlan, NBFT_INFO_VLAN),
    FIELD(NBFT_HFI_INFO, info, ip_origin, NBFT_INFO_IP_ORIGIN),
    FIELD(NBFT_HFI_INFO, info, ip_address, NBFT_INFO_IP_ADDRESS),
    FIELD(NBFT_HFI_INFO, info, prefix, NBFT_INFO_PREFIX),
    FIELD(NBFT_HFI_INFO, info, gateway, NBFT_INFO_GATEWAY),
    FIELD(NBFT_HFI_INFO, info, route_metric, NBFT_INFO_ROUTE_METRIC),
    FIELD(NBFT_HFI_INFO, info, primary_dns, NBFT_INFO_PRIMARY_DNS),
    FIELD(NBFT_HFI_INFO, info, secondary_dns, NBFT_INFO_SECONDARY_DNS),
    FIELD(NBFT_HFI_INFO, info, dhcp_server, NBFT_INFO_DHCP_SERVER),
    FIELD(NBFT_HFI_EXTENDED, hfi_extended, structure_id, NBFT_HFI_EXTENDED_STRUCTURE_ID),
    FIELD(NBFT_HFI_EXTENDED, hfi_extended, version, NBFT_HFI_EXTENDED_VERSION),
    FIELD(NBFT_HFI_EXTENDED, hfi_extended, hfi_index, NBFT_HFI_EXTENDED_HFI_INDEX),
    FIELD(NBFT_HFI_EXTENDED, hfi_extended, flags, NBFT_HFI_EXTENDED_FLAGS),
    FIELD(NBFT_SSNS, ssns, structure_id, NBFT_SSNS_STRUCTURE_ID),
    FIELD(NBFT_SSNS, ssns, index, NBFT_SSNS_INDEX),
    FIELD(NBFT_SSNS, ssns, flags, NBFT_SSNS_FLAGS),
    FIELD(NBFT_SSNS, ssns, transport_type, NBFT_SSNS_TRANSPORT_TYPE),
    FIELD(NBFT_SSNS, ssns, transport_flags, NBFT_SSNS_TRANSPORT_FLAGS),
    FIELD(NBFT_SSNS, ssns, discovery_index, NBFT_SSNS_DISCOVERY_INDEX),
    FIELD(NBFT_SSNS, ssns, port_id, NBFT_SSNS_PORT_ID),
    FIELD(NBFT_SSNS, ssns, nsid, NBFT_SSNS_NSID),
    FIELD(NBFT_SSNS, ssns, nid_type, NBFT_SSNS_NID_TYPE),
    FIELD(NBFT_SSNS, ssns, nid, NBFT_SSNS_NID),
    FIELD(NBFT_SSNS, ssns, security_index, NBFT_SSNS_SECURITY_INDEX),
    FIELD(NBFT_SSNS, ssns, primary_hfi_index, NBFT_SSNS_PRIMARY_HFI_INDEX),
    FIELD(NBFT_SSNS_EXTENDED, ssns_extended, structure_id, NBFT_SSNS_EXTENDED_STRUCTURE_ID),
    FIELD(NBFT_SSNS_EXTENDED, ssns_extended, version, NBFT_SSNS_EXTENDED_VERSION),
    FIELD(NBFT_SSNS_EXTENDED, ssns_extended, ssns_index, NBFT_SSNS_EXTENDED_SSNS_INDEX),
    FIELD(NBFT_SSNS_EXTENDED, ssns_extended, flags, NBFT_SSNS_EXTENDED_FLAGS),
    FIELD(NBFT_SSNS_EXTENDED, ssns_extended, controller_id, NBFT_SSNS_EXTENDED_CONTROLLER_ID),
    FIELD(NBFT_SSNS_EXTENDED, ssns_extended, admin_queue_size, NBFT_SSNS_EXTENDED_ADMIN_QUEUE_SIZE),
    FIELD(NBFT_SECURITY, security, structure_id, NBFT_SECURITY_STRUCTURE_ID),
    FIELD(NBFT_SECURITY, security, index, NBFT_SECURITY_INDEX),
    FIELD(NBFT_SECURITY, security, flags, NBFT_SECURITY_FLAGS),
    FIELD(NBFT_SECURITY, security, secret_type, NBFT_SECURITY_SECRET_TYPE),
    FIELD(NBFT_DISCOVERY, discovery, structure_id, NBFT_DISCOVERY_STRUCTURE_ID),
    FIELD(NBFT_DISCOVERY, discovery, flags, NBFT_DISCOVERY_FLAGS),
    FIELD(NBFT_DISCOVERY, discovery, index, NBFT_DISCOVERY_INDEX),
    FIELD(NBFT_DISCOVERY, discovery, hfi_index, NBFT_DISCOVERY_HFI_INDEX),
    FIELD(NBFT_DISCOVERY, discovery, security_index, NBFT_DISCOVERY_SECURITY_INDEX)};

static const struct part objects[] = {
    OBJECT(NBFT_HEADER, header, driver_signature, NBFT_HEADER_DRIVER_SIGNATURE, letters, 1),
    OBJECT(NBFT_HOST, host, nqn, NBFT_HOST_NQN, letters, 2),
    OBJECT(NBFT_HFI_INFO, info, host_name, NBFT_INFO_HOST_NAME, letters, 3),
    OBJECT(NBFT_HFI_EXTENDED, hfi_extended, iaid, NBFT_HFI_EXTENDED_IAID, letters, 4),
    OBJECT(NBFT_HFI_EXTENDED, hfi_extended, duid, NBFT_HFI_EXTENDED_DUID, letters, 5),
    OBJECT(NBFT_SSNS, ssns, address, NBFT_SSNS_ADDRESS, letters, 6),
    OBJECT(NBFT_SSNS, ssns, service, NBFT_SSNS_SERVICE, letters, 7),
    OBJECT(NBFT_SSNS, ssns, secondary_hfi_indexes, NBFT_SSNS_SECONDARY_HFI_INDEXES, one, 1),
    OBJECT(NBFT_SSNS, ssns, nqn, NBFT_SSNS_NQN, letters, 8),
    OBJECT(NBFT_SSNS_EXTENDED, ssns_extended, root_path, NBFT_SSNS_EXTENDED_ROOT_PATH, letters, 9),
    OBJECT(NBFT_SECURITY, security, algorithms, NBFT_SECURITY_ALGORITHMS, letters, 10),
    OBJECT(NBFT_SECURITY, security, protocols, NBFT_SECURITY_PROTOCOLS, letters, 11),
    OBJECT(NBFT_SECURITY, security, cipher_suites, NBFT_SECURITY_CIPHER_SUITES, letters, 12),
    OBJECT(NBFT_SECURITY, security, dh_groups, NBFT_SECURITY_DH_GROUPS, letters, 13),
    OBJECT(NBFT_SECURITY, security, hash_functions, NBFT_SECURITY_HASH_FUNCTIONS, letters, 14),
    OBJECT(NBFT_SECURITY, security, keypath, NBFT_SECURITY_KEYPATH, letters, 15),
    OBJECT(NBFT_DISCOVERY, discovery, address, NBFT_DISCOVERY_ADDRESS, letters, 16),
    OBJECT(NBFT_DISCOVERY, discovery, nqn, NBFT_DISCOVERY_NQN, letters, 17)};

static int same(const uint8_t *one_bytes, const uint8_t *other_bytes, size_t length)
{
    while (length > 0 && *one_bytes == *other_bytes) {
        one_bytes++;
        other_bytes++;
        length--;
    }
    return length == 0;
}

static uint16_t position(const struct part *part)
{
    return (uint16_t)(part->kind > NBFT_HOST ? 1 : 0);
}

static int field_holds(const struct part *part)
{
    uint8_t value[16];
    uint64_t result = nbft_field(table, sizeof table, part->kind, position(part), part->offset, value);

    return NBFT_FIELD_ANSWER(result) == NBFT_DONE && NBFT_FIELD_USED(result) &&
           NBFT_FIELD_LENGTH(result) == part->length && part->place == part->offset &&
           same(value, part->told, part->length) && same(part->read, part->told, part->length);
}

static int object_holds(const struct part *part)
{
    uint64_t result = nbft_object(table, sizeof table, part->kind, position(part), part->offset);
    uint32_t start = nbft_object_start(table, sizeof table, part->kind, position(part), part->offset);

    return NBFT_OBJECT_ANSWER(result) == NBFT_DONE && NBFT_OBJECT_PRESENT(result) &&
           NBFT_OBJECT_LENGTH(result) == part->length && part->place == part->offset &&
           same(table + start, part->told, part->length);
}

/* The same object by one call, and in the entry of its record. */
static int place_holds(const struct part *part)
{
    uint64_t result = nbft_object_place(table, sizeof table, part->kind, position(part), part->offset);
    const struct nbft_place *stands = part->stands;

    return NBFT_PLACE_ANSWER(result) == NBFT_DONE && NBFT_PLACE_PRESENT(result) &&
           NBFT_PLACE_LENGTH(result) == part->length && stands->length == part->length &&
           stands->start == NBFT_PLACE_START(result) && stands->present == 1 && stands->zero == 0 &&
           same(table + stands->start, part->told, part->length);
}

static const struct {
    uint8_t kind;
    size_t length;
} images[] = {{NBFT_HEADER, sizeof(struct nbft_header_record)},
              {NBFT_CONTROL_RECORD, sizeof(struct nbft_control_record)},
              {NBFT_HOST, sizeof(struct nbft_host_record)},
              {NBFT_HFI, sizeof(struct nbft_hfi_record)},
              {NBFT_SSNS, sizeof(struct nbft_ssns_record)},
              {NBFT_SECURITY, sizeof(struct nbft_security_record)},
              {NBFT_DISCOVERY, sizeof(struct nbft_discovery_record)},
              {NBFT_HFI_INFO, sizeof(struct nbft_info_record)},
              {NBFT_SSNS_EXTENDED, sizeof(struct nbft_ssns_extended_record)},
              {NBFT_HFI_EXTENDED, sizeof(struct nbft_hfi_extended_record)}};
#define IMAGES (sizeof images / sizeof *images)

/* Each record by itself, and then all of them. */
static unsigned wrong_entries(void)
{
    uint64_t result = nbft_records(table, sizeof table, NBFT_HEADER, 0, NBFT_HFI_EXTENDED, entries, sizeof entries);
    unsigned wrong = NBFT_RECORDS_ANSWER(result) != NBFT_DONE;
    size_t at;

    wrong += NBFT_RECORDS_WRITTEN(result) != IMAGES || NBFT_RECORDS_ALL(result) != IMAGES;
    for (at = 0; at < IMAGES; at++) {
        uint8_t kind = images[at].kind;
        uint16_t where = (uint16_t)(kind > NBFT_HOST ? 1 : 0);

        wrong += nbft_record(table, sizeof table, kind, where, &by_kind[kind]) != NBFT_DONE;
        wrong += by_kind[kind].kind != kind || by_kind[kind].position != where || by_kind[kind].used != 1;
        wrong += by_kind[kind].image_length != images[at].length;
        wrong += !same(NBFT_BYTES(by_kind[kind]), NBFT_BYTES(entries[at]), NBFT_ENTRY_BYTES);
    }
    return wrong;
}

/* Room for two entries, room for none, and a position that is not there: what was not written stays as it was. */
static unsigned wrong_rooms(void)
{
    uint64_t some = nbft_records(table, sizeof table, NBFT_HFI, 1, NBFT_SSNS_EXTENDED, &entries[10],
                                 2 * sizeof *entries);
    uint64_t none = nbft_records(table, sizeof table, NBFT_HFI, 1, NBFT_HFI, NULL, 0);
    uint64_t refused = nbft_records(table, sizeof table, NBFT_HFI, 2, NBFT_HFI, entries, sizeof entries);
    unsigned wrong = 0;

    wrong += NBFT_RECORDS_WRITTEN(some) != 2 || NBFT_RECORDS_ALL(some) != 6;
    wrong += !same(NBFT_BYTES(entries[10]), NBFT_BYTES(entries[3]), NBFT_ENTRY_BYTES);
    wrong += !same(NBFT_BYTES(entries[11]), NBFT_BYTES(entries[4]), NBFT_ENTRY_BYTES);
    wrong += NBFT_RECORDS_ANSWER(none) != NBFT_DONE || NBFT_RECORDS_WRITTEN(none) != 0 || NBFT_RECORDS_ALL(none) != 1;
    wrong += refused != NBFT_NO_SUCH_FIELD;
    wrong += !same(NBFT_BYTES(entries[0]), NBFT_BYTES(by_kind[NBFT_HEADER]), NBFT_ENTRY_BYTES);
    return wrong;
}

/* A refused call leaves its entry as it was; and the words of its number. */
static unsigned wrong_refusals(void)
{
    struct nbft_entry *entry = &entries[0], *untouched = &entries[1];
    uint32_t none, few;
    unsigned wrong = 0;

    FILL(*entry);
    FILL(*untouched);
    none = nbft_record(table, sizeof table, NBFT_HOST, 1, entry);
    few = nbft_record(table, 1, NBFT_HOST, 0, entry);
    wrong += none != NBFT_NO_SUCH_FIELD || few != NBFT_TOO_FEW_BYTES;
    wrong += !same(NBFT_BYTES(*entry), NBFT_BYTES(*untouched), NBFT_ENTRY_BYTES);
    wrong += !same((const uint8_t *)nbft_words(few), (const uint8_t *)"too few bytes", sizeof "too few bytes");
    return wrong;
}

/* How many of the flags' names do not fit each other; what the others are the fields show. */
static unsigned wrong_masks(void)
{
    static const int masks[][3] = {
        {NBFT_HOST_FLAG_PRIMARY_MASK, NBFT_HOST_FLAG_PRIMARY_SHIFT, 3},
        {NBFT_SSNS_FLAG_AVAILABILITY_MASK, NBFT_SSNS_FLAG_AVAILABILITY_SHIFT, 3},
        {NBFT_SECURITY_FLAG_IN_BAND_MASK, NBFT_SECURITY_FLAG_IN_BAND_SHIFT, 3},
        {NBFT_SECURITY_FLAG_PROTOCOLS_MASK, NBFT_SECURITY_FLAG_PROTOCOLS_SHIFT, 3},
        {NBFT_SECURITY_FLAG_CHANNEL_MASK, NBFT_SECURITY_FLAG_CHANNEL_SHIFT, 3},
        {NBFT_SECURITY_FLAG_ALGORITHMS_MASK, NBFT_SECURITY_FLAG_ALGORITHMS_SHIFT, 3},
        {NBFT_INFO_FLAG_AUTOCONFIGURED, 3, 1}};
    unsigned wrong = 0;
    size_t at;

    for (at = 0; at < sizeof masks / sizeof *masks; at++)
        wrong += masks[at][0] >> masks[at][1] != masks[at][2];
    return wrong;
}

/* Of the names of bytes that no read takes. */
static unsigned wrong_members(void)
{
    unsigned wrong = 0;

    wrong += offsetof(struct nbft_header_record, signature) != NBFT_HEADER_SIGNATURE;
    wrong += offsetof(struct nbft_header_record, length) != NBFT_HEADER_LENGTH;
    wrong += offsetof(struct nbft_header_record, major) != NBFT_HEADER_MAJOR;
    wrong += offsetof(struct nbft_header_record, checksum) != NBFT_HEADER_CHECKSUM;
    wrong += offsetof(struct nbft_header_record, heap_offset) != NBFT_HEADER_HEAP_OFFSET;
    wrong += offsetof(struct nbft_header_record, heap_length) != NBFT_HEADER_HEAP_LENGTH;
    wrong += offsetof(struct nbft_header_record, minor) != NBFT_HEADER_MINOR;
    wrong += offsetof(struct nbft_hfi_record, transport_info) != NBFT_HFI_TRANSPORT_INFO;
    wrong += offsetof(struct nbft_ssns_record, extended_info) != NBFT_SSNS_EXTENDED_INFO;
    wrong += offsetof(struct nbft_info_record, extended_info) != NBFT_INFO_EXTENDED_INFO;
    return wrong;
}

/* Of these bytes themselves. */
static unsigned wrong_frame(void)
{
    const struct nbft_reference *signature = (const struct nbft_reference *)(table + NBFT_HEADER_DRIVER_SIGNATURE);
    uint64_t length = nbft_state_used(state), heap = nbft_get(table + NBFT_HEADER_HEAP_OFFSET, 4);
    unsigned wrong = 0;

    wrong += !same(table + NBFT_HEADER_SIGNATURE, (const uint8_t *)"NBFT", 4);
    wrong += nbft_get(table + NBFT_HEADER_LENGTH, 4) != length;
    wrong += table[NBFT_HEADER_MAJOR] != 1 || table[NBFT_HEADER_MINOR] != 1;
    wrong += heap + nbft_get(table + NBFT_HEADER_HEAP_LENGTH, 4) != length;
    wrong += NBFT_GET(signature->offset) != heap || NBFT_GET(signature->length) != 1;
    table[NBFT_HEADER_CHECKSUM]++;
    wrong += NBFT_NUMBER(nbft_check(table, sizeof table)) != NBFT_CHECKSUM;
    table[NBFT_HEADER_CHECKSUM]--;
    return wrong;
}

/* Of the calls for whole tables: what was built is good, is its own form, and has no byte to give up. */
static unsigned wrong_calls(void)
{
    uint64_t looks = nbft_check_looks(table, sizeof table);
    uint64_t rewritten = nbft_rewrite(table, sizeof table, form, sizeof form);
    uint64_t closed = nbft_compact(table, sizeof table, map, sizeof map);
    unsigned wrong = 0;

    wrong += nbft_check(table, sizeof table) != NBFT_DONE;
    wrong += NBFT_LOOKS_ANSWER(looks) != NBFT_DONE || NBFT_LOOKS(looks) != 11;
    wrong += NBFT_REWRITE_ANSWER(rewritten) != NBFT_DONE || NBFT_REWRITE_LENGTH(rewritten) != nbft_state_used(state);
    wrong += !same(table, form, NBFT_REWRITE_LENGTH(rewritten));
    wrong += NBFT_COMPACT_ANSWER(closed) != NBFT_DONE || NBFT_COMPACT_MOVED(closed) != 0;
    wrong += NBFT_KIND(nbft_check(table, 1)) != 0 || NBFT_POSITION(nbft_check(table, 1)) != 0;
    return wrong;
}

void NBFT_CALL ANSWERS(struct answers *answers)
{
    size_t at;

    fill_host();
    fill_hfi();
    fill_ssns();
    fill_others();
    answers->fields = sizeof fields / sizeof *fields;
    answers->objects = sizeof objects / sizeof *objects;
    answers->records = IMAGES;
    answers->wrong = build();
    answers->wrong += wrong_masks() + wrong_members() + wrong_frame() + wrong_calls() + wrong_entries() + wrong_rooms();
    answers->wrong += wrong_refusals();
    for (at = 0; at < answers->fields; at++)
        answers->wrong += !field_holds(&fields[at]);
    for (at = 0; at < answers->objects; at++)
        answers->wrong += !object_holds(&objects[at]) + !place_holds(&objects[at]);
    answers->length = (unsigned)nbft_state_used(state);
}
