/*
 * build FILE: a table with a host, two interfaces (HFIs) and one subsystem that
 * is reached through them, built call by call and written to FILE. It is told as
 * the standard has it, so that Linux shows all of it (`nvme nbft show`).
 */
#include <nbft.h>
#include <stdio.h>
#include <string.h>

static uint8_t state[NBFT_STATE_BYTES]; /* all zero: the empty state */
static uint8_t table[1024];

/* An object: its bytes and their number, as the calls take them. Text is told without the zero byte that ends it. */
#define OBJECT(text) (const uint8_t *)(text), strlen(text)

static uint32_t begin(void)
{
    static const uint8_t counts[4] = {2, 1, 0, 0};
    struct nbft_header_fields header;

    memcpy(header.oem_id, "OEM   ", sizeof header.oem_id);
    memcpy(header.oem_table_id, "EXAMPLE ", sizeof header.oem_table_id);
    NBFT_PUT(header.oem_revision, 1);
    memcpy(header.creator_id, "MAKE", sizeof header.creator_id);
    NBFT_PUT(header.creator_revision, 1);
    return nbft_begin(state, table, sizeof table, NBFT_BYTES(header), counts, NULL, 0);
}

/* The host ID is the UUID of the NQN, its bytes in the order in which they are written there. */
static uint32_t tell_host(void)
{
    struct nbft_host_record host = {0};

    host.flags = NBFT_HOST_FLAG_ID_CONFIGURED;
    memcpy(host.id, "\x10\x32\x54\x76\x98\xba\x4c\xfe\x81\x23\x45\x67\x89\xab\xcd\xef", sizeof host.id);
    return nbft_host(state, table, sizeof table, NBFT_BYTES(host),
                     OBJECT("nqn.2014-08.org.nvmexpress:uuid:10325476-98ba-4cfe-8123-456789abcdef"));
}

/* An IPv4 address as the table has it, mapped into the 16 bytes of an IPv6 one. */
static void put_ipv4(uint8_t at[16], uint8_t a, uint8_t b, uint8_t c, uint8_t d)
{
    const uint8_t mapped[16] = {0, 0, 0, 0, 0, 0, 0, 0, 0, 0, 0xff, 0xff, a, b, c, d};

    memcpy(at, mapped, sizeof mapped);
}

/* Port 0 has 10.0.0.2 behind the gateway 10.0.0.1, port 1 has 10.0.1.2 behind 10.0.1.1. */
static uint32_t tell_hfi(uint8_t port)
{
    static const struct nbft_hfi_extended_record no_extended = {0};
    const struct nbft_hfi_record hfi = {0}; /* whatever it holds the builder sets itself */
    struct nbft_info_record info = {0};

    info.info_version = 1;
    NBFT_PUT(info.pci_routing_id, 0x0300 + port);
    memcpy(info.mac, "\x02\x00\x00\x00\x00\x01", sizeof info.mac);
    info.mac[5] += port;
    info.ip_origin = 1; /* the address was set by hand */
    put_ipv4(info.ip_address, 10, 0, port, 2);
    info.prefix = 24;
    put_ipv4(info.gateway, 10, 0, port, 1);
    return nbft_hfi(state, table, sizeof table, NBFT_BYTES(hfi), NBFT_BYTES(info), OBJECT("machine"), 0,
                    NBFT_BYTES(no_extended), NULL, 0, NULL, 0);
}

static uint32_t tell_first_hfi(void)
{
    return tell_hfi(0);
}

static uint32_t tell_second_hfi(void)
{
    return tell_hfi(1);
}

/*
 * The address is 16 bytes as an interface's is. The service ends in a zero byte,
 * which is told with it: it is no text of those that the builder ends. libnvme
 * would drop a subsystem without a list of other HFIs.
 */
static uint32_t tell_subsystem(void)
{
    static const char service[] = "4420"; /* with C's own zero byte: five bytes */
    static const uint8_t other_hfis[] = {2};
    static const struct nbft_ssns_extended_record no_extended = {0};
    struct nbft_ssns_record ssns = {0};
    uint8_t address[16];

    put_ipv4(address, 10, 0, 0, 9);
    NBFT_PUT(ssns.port_id, 1);
    NBFT_PUT(ssns.nsid, 7);
    ssns.primary_hfi_index = 1; /* reached through HFI 1 */
    return nbft_ssns(state, table, sizeof table, NBFT_BYTES(ssns), address, sizeof address,
                     (const uint8_t *)service, sizeof service, other_hfis, sizeof other_hfis,
                     OBJECT("nqn.2014-08.org.example:array"), NBFT_BYTES(no_extended), NULL, 0);
}

static uint32_t finish(void)
{
    return nbft_finish(state, table, sizeof table);
}

/* The table's bytes are written only once it is finished. */
static int write_table(const char *name)
{
    size_t length = (size_t)nbft_state_used(state);
    FILE *file = fopen(name, "wb");
    int whole;

    if (file == NULL)
        return 0;
    whole = fwrite(table, 1, length, file) == length;
    whole = fclose(file) == 0 && whole;
    if (whole)
        printf("%lu bytes\n", (unsigned long)length);
    return whole;
}

/* Each call in its turn, up to the first that is refused. */
static int build(void)
{
    static uint32_t (*const calls[])(void) = {begin,           tell_host,      tell_first_hfi,
                                              tell_second_hfi, tell_subsystem, finish};
    uint32_t answer = NBFT_DONE;
    size_t call;

    for (call = 0; call < sizeof calls / sizeof *calls && answer == NBFT_DONE; call++)
        answer = calls[call]();
    if (answer != NBFT_DONE)
        fprintf(stderr, "call %u is refused: number %u, kind %u, position %u\n", (unsigned)call,
                NBFT_NUMBER(answer), NBFT_KIND(answer), NBFT_POSITION(answer));
    return answer == NBFT_DONE;
}

int main(int count, char **words)
{
    if (count != 2) {
        fprintf(stderr, "usage: build FILE\n");
        return 2;
    }
    if (!build())
        return 1;
    if (!write_table(words[1])) {
        fprintf(stderr, "%s cannot be written\n", words[1]);
        return 2;
    }
    return 0;
}
