/*
 * interop: structs as libnvme declares them are handed to the builder as they
 * stand, and the finished table is read back into what they said.
 */
#include <nbft.h>
#include <stddef.h>
#include <stdio.h>
#include <string.h>

/*
 * Members are named as in libnvme, so that filling them looks as it would with
 * its header. Numbers are little endian there as in the table, and x86-64
 * stores them so. Every byte is FFh before the members are filled, to show what
 * the builder sets itself and what it drops.
 */
#pragma pack(push, 1)
struct nbft_heap_obj {
    uint32_t offset;
    uint16_t length;
};
struct nbft_header {
    char signature[4];
    uint32_t length;
    uint8_t major_revision, checksum;
    char oem_id[6], oem_table_id[8];
    uint32_t oem_revision, creator_id, creator_revision, heap_offset, heap_length;
    struct nbft_heap_obj driver_dev_path_sig;
    uint8_t minor_revision, reserved[13];
};
struct nbft_host {
    uint8_t structure_id, flags, host_id[16];
    struct nbft_heap_obj host_nqn_obj;
    uint8_t reserved[8];
};
struct nbft_hfi {
    uint8_t structure_id, index, flags, trtype, reserved1[12];
    struct nbft_heap_obj trinfo_obj;
    uint8_t reserved2[10];
};
struct nbft_hfi_info_tcp {
    uint8_t structure_id, version, trtype, trinfo_version;
    uint16_t hfi_index;
    uint8_t flags;
    uint32_t pci_sbdf;
    uint8_t mac_addr[6];
    uint16_t vlan;
    uint8_t ip_origin, ip_address[16], subnet_mask_prefix, ip_gateway[16], reserved1;
    uint16_t route_metric;
    uint8_t primary_dns[16], secondary_dns[16], dhcp_server[16];
    struct nbft_heap_obj host_name_obj;
    uint8_t reserved2[18];
};
struct nbft_ssns {
    uint8_t structure_id;
    uint16_t index, flags;
    uint8_t trtype;
    uint16_t trflags;
    uint8_t primary_discovery_ctrl_index, reserved1;
    struct nbft_heap_obj subsys_traddr_obj, subsys_trsvcid_obj;
    uint16_t subsys_port_id;
    uint32_t nsid;
    uint8_t nidt, nid[16], security_desc_index, primary_hfi_desc_index, reserved2;
    struct nbft_heap_obj secondary_hfi_assoc_obj, subsys_ns_nqn_obj, ssns_extended_info_desc_obj;
    uint8_t reserved3[62];
};
struct nbft_ssns_ext_info {
    uint8_t structure_id, version;
    uint16_t ssns_index;
    uint32_t flags;
    uint16_t cntlid, asqsz;
    struct nbft_heap_obj dhcp_root_path_str_obj;
};
struct nbft_security {
    uint8_t structure_id, index;
    uint16_t flags;
    uint8_t secret_type, reserved1;
    struct nbft_heap_obj sec_chan_alg_obj, auth_proto_obj, cipher_suite_obj, dh_grp_obj, sec_hash_func_obj, sec_keypath_obj;
    uint8_t reserved2[22];
};
struct nbft_discovery {
    uint8_t structure_id, flags, index, hfi_index, sec_index, reserved1;
    struct nbft_heap_obj discovery_ctrl_addr_obj, discovery_ctrl_nqn_obj;
    uint8_t reserved2[14];
};
#pragma pack(pop)

/* A struct of another size would be another layout: then this does not compile. */
#define SAME_SIZE(theirs, ours) (sizeof(struct theirs) == sizeof(struct ours))
typedef char the_sizes_are_those_of_the_calls
    [SAME_SIZE(nbft_host, nbft_host_record) && SAME_SIZE(nbft_hfi, nbft_hfi_record) &&
     SAME_SIZE(nbft_hfi_info_tcp, nbft_info_record) && SAME_SIZE(nbft_ssns, nbft_ssns_record) &&
     SAME_SIZE(nbft_ssns_ext_info, nbft_ssns_extended_record) && SAME_SIZE(nbft_security, nbft_security_record) &&
     SAME_SIZE(nbft_discovery, nbft_discovery_record) && sizeof(struct nbft_header) == 64 ? 1 : -1];

#define OBJECT(text) (const uint8_t *)(text), strlen(text)

static uint8_t state[NBFT_STATE_BYTES];
static uint8_t table[2048];

static struct nbft_header header;
static struct nbft_host host;
static struct nbft_hfi hfi;
static struct nbft_hfi_info_tcp hfi_info_tcp;
static struct nbft_ssns ssns;
static struct nbft_ssns_ext_info ssns_ext_info;
static struct nbft_security security;
static struct nbft_discovery discovery;

static void fill_host_and_interface(void)
{
    memset(&header, 0xff, sizeof header);
    memcpy(header.oem_id, "OEM   ", sizeof header.oem_id);
    memcpy(header.oem_table_id, "INTEROP ", sizeof header.oem_table_id);
    header.oem_revision = 2;
    memset(&host, 0xff, sizeof host);
    host.flags = 0xe0 | NBFT_HOST_FLAG_ID_CONFIGURED; /* reserved bits set, valid bit clear */
    memcpy(host.host_id, "\x10\x32\x54\x76\x98\xba\x4c\xfe\x81\x23\x45\x67\x89\xab\xcd\xef", sizeof host.host_id);
    memset(&hfi, 0xff, sizeof hfi);
    memset(&hfi_info_tcp, 0xff, sizeof hfi_info_tcp);
    hfi_info_tcp.trinfo_version = 1;
    hfi_info_tcp.flags = 0; /* so the DHCP server's address does not count */
    hfi_info_tcp.pci_sbdf = 0x1c00;
    hfi_info_tcp.subnet_mask_prefix = 24;
    hfi_info_tcp.route_metric = 500;
}

static void fill_subsystem(void)
{
    memset(&ssns, 0xff, sizeof ssns);
    ssns.flags = NBFT_SSNS_FLAG_SECURITY | NBFT_SSNS_FLAG_EXTENDED_INFO;
    ssns.trflags = 0;
    ssns.primary_discovery_ctrl_index = 1;
    ssns.subsys_port_id = 1;
    ssns.nsid = 0x01020304;
    ssns.security_desc_index = 1;
    ssns.primary_hfi_desc_index = 1;
    memset(&ssns_ext_info, 0xff, sizeof ssns_ext_info);
    ssns_ext_info.asqsz = 32;
    memset(&security, 0xff, sizeof security);
    security.flags = 0; /* no policy and no list */
    security.secret_type = 0;
    memset(&discovery, 0xff, sizeof discovery);
    discovery.hfi_index = 1;
    discovery.sec_index = 0;
}

/*
 * Objects as libnvme wants them, which would drop the record else: the NQN whose
 * UUID the host ID is, an address of 16 bytes, a service that ends in a zero
 * byte, the list of HFIs beside the primary one, of which there is none here but
 * that one, and URI and NQN of the discovery controller.
 */
static const char host_nqn[] = "nqn.2014-08.org.nvmexpress:uuid:10325476-98ba-4cfe-8123-456789abcdef";
static const uint8_t traddr[16] = {0, 0, 0, 0, 0, 0, 0, 0, 0, 0, 0xff, 0xff, 10, 0, 0, 9};
static const char trsvcid[] = "4420";
static const uint8_t secondary_hfis[] = {1};

/* The first answer that is not done, or that of the last call. */
static uint32_t build(void)
{
    static const uint8_t counts[4] = {1, 1, 1, 1}, no_hfi_extended[20];
    uint32_t answer = nbft_begin(state, table, sizeof table, NBFT_BYTES(header) + NBFT_HEADER_OEM_ID, counts,
                                 OBJECT("driver"));

    if (answer == NBFT_DONE)
        answer = nbft_host(state, table, sizeof table, NBFT_BYTES(host), OBJECT(host_nqn));
    if (answer == NBFT_DONE)
        answer = nbft_hfi(state, table, sizeof table, NBFT_BYTES(hfi), NBFT_BYTES(hfi_info_tcp), OBJECT("machine"), 0,
                          no_hfi_extended, NULL, 0, NULL, 0);
    if (answer == NBFT_DONE)
        answer = nbft_ssns(state, table, sizeof table, NBFT_BYTES(ssns), traddr, sizeof traddr, NBFT_BYTES(trsvcid),
                           sizeof trsvcid, secondary_hfis, sizeof secondary_hfis,
                           OBJECT("nqn.2014-08.org.example:array"), NBFT_BYTES(ssns_ext_info), OBJECT("path"));
    if (answer == NBFT_DONE)
        answer = nbft_security(state, table, sizeof table, NBFT_BYTES(security), NULL, 0, NULL, 0, NULL, 0, NULL, 0,
                               NULL, 0, OBJECT("a keypath, dropped by the secret's type"));
    if (answer == NBFT_DONE)
        answer = nbft_discovery(state, table, sizeof table, NBFT_BYTES(discovery), OBJECT("nvme+tcp://10.0.0.9:8009/"),
                                OBJECT("nqn.2014-08.org.nvmexpress.discovery"));
    return answer == NBFT_DONE ? nbft_finish(state, table, sizeof table) : answer;
}

/* A member of a struct that was told, and where a read finds it. */
struct member {
    const char *name;
    uint8_t kind;
    uint16_t position;
    size_t offset, size;
    const uint8_t *told;
    int kept; /* or set or dropped by the builder */
};
#define MEMBER(kind, position, record, name, kept) \
    {#record "." #name, kind, position, offsetof(struct nbft_##record, name), sizeof record.name, \
     NBFT_BYTES(record) + offsetof(struct nbft_##record, name), kept}

static const struct member members[] = {
    MEMBER(NBFT_HEADER, 0, header, oem_id, 1),
    MEMBER(NBFT_HEADER, 0, header, oem_revision, 1),
    MEMBER(NBFT_HOST, 0, host, structure_id, 0),
    MEMBER(NBFT_HOST, 0, host, flags, 0),
    MEMBER(NBFT_HOST, 0, host, host_id, 1),
    MEMBER(NBFT_HFI, 1, hfi, index, 0),
    MEMBER(NBFT_HFI, 1, hfi, flags, 0),
    MEMBER(NBFT_HFI, 1, hfi, trtype, 0),
    MEMBER(NBFT_HFI_INFO, 1, hfi_info_tcp, hfi_index, 0),
    MEMBER(NBFT_HFI_INFO, 1, hfi_info_tcp, pci_sbdf, 1),
    MEMBER(NBFT_HFI_INFO, 1, hfi_info_tcp, subnet_mask_prefix, 1),
    MEMBER(NBFT_HFI_INFO, 1, hfi_info_tcp, route_metric, 1),
    MEMBER(NBFT_HFI_INFO, 1, hfi_info_tcp, dhcp_server, 0),
    MEMBER(NBFT_SSNS, 1, ssns, index, 0),
    MEMBER(NBFT_SSNS, 1, ssns, subsys_port_id, 1),
    MEMBER(NBFT_SSNS, 1, ssns, nsid, 1),
    MEMBER(NBFT_SSNS, 1, ssns, security_desc_index, 1),
    MEMBER(NBFT_SSNS_EXTENDED, 1, ssns_ext_info, version, 0),
    MEMBER(NBFT_SSNS_EXTENDED, 1, ssns_ext_info, asqsz, 1),
    MEMBER(NBFT_SECURITY, 1, security, index, 0),
    MEMBER(NBFT_SECURITY, 1, security, secret_type, 1),
    MEMBER(NBFT_DISCOVERY, 1, discovery, index, 0),
    MEMBER(NBFT_DISCOVERY, 1, discovery, hfi_index, 1)};

static void print_bytes(const char *title, const uint8_t *bytes, size_t size)
{
    size_t at;

    printf(" %s ", title);
    for (at = 0; at < size; at++)
        printf("%02x", bytes[at]);
}

/* Whether the read has the member's length, and its bytes are those told where they should be. */
static int holds(const struct member *member)
{
    uint8_t value[16] = {0};
    uint64_t result = nbft_field(table, sizeof table, member->kind, member->position, (uint32_t)member->offset, value);
    int same = memcmp(value, member->told, member->size) == 0;

    printf("%s:", member->name);
    print_bytes("told", member->told, member->size);
    print_bytes("read", value, member->size);
    puts(same ? ", kept" : ", the builder's");
    return NBFT_FIELD_ANSWER(result) == NBFT_DONE && NBFT_FIELD_LENGTH(result) == member->size && same == member->kept;
}

int main(void)
{
    size_t at, wrong = 0;
    uint32_t answer;

    fill_host_and_interface();
    fill_subsystem();
    answer = build();
    if (answer != NBFT_DONE) {
        fprintf(stderr, "refused: number %u, kind %u, position %u\n",
                NBFT_NUMBER(answer), NBFT_KIND(answer), NBFT_POSITION(answer));
        return 1;
    }
    for (at = 0; at < sizeof members / sizeof *members; at++)
        wrong += !holds(&members[at]);
    printf("%u members read, %u wrong\n", (unsigned)at, (unsigned)wrong);
    return wrong != 0;
}
