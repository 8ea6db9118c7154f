// show [--all] FILE: everything that a table says, by the names of nbft.h. All records are read by one call. What is
// shown, and how, stands in the rows below: columns of the tables, then lines for each record, of which those that say
// nothing are left out unless all are asked for. It prints what nbft_show prints, as long as no value has a thousand
// characters. This file is C++17.
#include <nbft.h>

#include <algorithm>
#include <array>
#include <fstream>
#include <iomanip>
#include <iostream>
#include <iterator>
#include <optional>
#include <sstream>
#include <string>
#include <string_view>
#include <vector>

namespace {

// ---- a table, and what is read of it

class Table {
public:
    explicit Table(std::string bytes) : bytes_(std::move(bytes)), entries_(NBFT_MOST_ENTRIES)
    {
        const std::uint64_t result = nbft_records(reinterpret_cast<const std::uint8_t *>(bytes_.data()), bytes_.size(),
                                                  NBFT_HEADER, 0, NBFT_HFI_EXTENDED, entries_.data(),
                                                  entries_.size() * sizeof(nbft_entry));
        answer_ = NBFT_RECORDS_ANSWER(result);
        entries_.resize(NBFT_RECORDS_WRITTEN(result));
    }

    std::uint32_t answer() const { return answer_; }

    // Every position of a list, used or not, and 0 for header and host.
    std::vector<unsigned> positions(nbft_kind kind) const
    {
        std::vector<unsigned> all;
        for (const nbft_entry &entry : entries_)
            if (entry.kind == kind)
                all.push_back(entry.position);
        return all;
    }

    const nbft_entry &entry(nbft_kind kind, unsigned position) const
    {
        return *std::find_if(entries_.begin(), entries_.end(), [=](const nbft_entry &entry) {
            return entry.kind == kind && entry.position == position;
        });
    }

    std::optional<std::string_view> object(const nbft_place &place) const
    {
        if (!place.present)
            return std::nullopt;
        return std::string_view(bytes_).substr(place.start, place.length);
    }

private:
    std::string bytes_;
    std::vector<nbft_entry> entries_;
    std::uint32_t answer_;
};

// The record at a position, with those in the heap that belong to it.
struct Seen {
    const Table &table;
    unsigned position;

    const auto &image(nbft_kind kind) const { return table.entry(kind, position).image; }
    bool has(nbft_kind kind) const { return table.entry(kind, position).image_length != 0; }
    const nbft_header_record &header() const { return image(NBFT_HEADER).header; }
    const nbft_host_record &host() const { return image(NBFT_HOST).host; }
    const nbft_ssns_record &ssns() const { return image(NBFT_SSNS).ssns; }
    const nbft_ssns_extended_record &ssns_extended() const { return image(NBFT_SSNS_EXTENDED).ssns_extended; }
    const nbft_hfi_record &hfi() const { return image(NBFT_HFI).hfi; }
    const nbft_info_record &info() const { return image(NBFT_HFI_INFO).info; }
    const nbft_hfi_extended_record &hfi_extended() const { return image(NBFT_HFI_EXTENDED).hfi_extended; }
    const nbft_discovery_record &discovery() const { return image(NBFT_DISCOVERY).discovery; }
    const nbft_security_record &security() const { return image(NBFT_SECURITY).security; }

    std::optional<std::string_view> object(nbft_kind kind, unsigned place) const
    {
        return table.object(table.entry(kind, position).places[place]);
    }
};

// ---- values: what is printed, and whether it says something

struct Value {
    std::string text;
    bool says_something = !text.empty();
};

std::string hex(std::uint64_t number, int digits)
{
    std::ostringstream out;
    out << std::hex << std::setfill('0') << std::setw(digits) << number;
    return out.str();
}

// Two digits for each byte.
template <typename Bytes> std::string hexes(const Bytes &bytes, std::string_view between = "")
{
    std::string text;
    for (const auto byte : bytes)
        text += (text.empty() ? std::string() : std::string(between)) + hex(static_cast<std::uint8_t>(byte), 2);
    return text;
}

// What is no printable ASCII is shown by its number.
template <typename Bytes> std::string escaped(const Bytes &bytes)
{
    std::string text;
    for (const auto byte : bytes) {
        if (byte >= ' ' && byte <= '~' && byte != '\\')
            text += static_cast<char>(byte);
        else
            text += "\\x" + hex(static_cast<std::uint8_t>(byte), 2);
    }
    return text;
}

Value number(std::uint64_t number)
{
    return {std::to_string(number), number != 0};
}

Value index(std::uint64_t index)
{
    return index != 0 ? number(index) : Value{"none", false};
}

Value if_there(const Seen &seen, nbft_kind kind, std::uint64_t told)
{
    return seen.has(kind) ? number(told) : Value{"none", false};
}

Value flag(std::uint64_t bit)
{
    return {bit != 0 ? "yes" : "no", bit != 0};
}

using Words = std::array<const char *, 3>;
constexpr Words primary = {"not indicated", "unselected", "selected"};
constexpr Words availability = {"not indicated", "available", "unavailable"};
constexpr Words wanted = {"not supported", "not required", "required"};
constexpr Words chosen_by = {"nobody", "driver", "administrator"};

Value choice(const Words &words, std::uint64_t flags, unsigned mask, unsigned shift)
{
    const std::uint64_t chosen = (flags & mask) >> shift;
    return {words[chosen], chosen != 0};
}

Value transport(unsigned type)
{
    return type == 3 ? Value{"tcp"} : number(type);
}

Value uuid(const std::uint8_t (&bytes)[16])
{
    std::string text = hexes(bytes);
    for (const std::size_t dash : {20, 16, 12, 8})
        text.insert(dash, "-");
    return {text};
}

// Segment, bus, device and function.
Value pci(std::uint64_t id)
{
    return {hex(id >> 16, 4) + ":" + hex(id >> 8 & 0xFF, 2) + ":" + hex(id >> 3 & 0x1F, 2) + "." + hex(id & 7, 1)};
}

// A text that is there and empty must not look like one that is absent.
Value text(std::optional<std::string_view> object)
{
    return {object && object->empty() ? "\"\"" : escaped(object.value_or(""))};
}

Value bytes(std::optional<std::string_view> object)
{
    return {hexes(object.value_or(""))};
}

// ---- addresses of the Internet, as inet_ntop prints them, and a dotted quad where IPv4 is mapped

using Groups = std::array<unsigned, 8>;

std::string colons(const Groups &groups, std::size_t from, std::size_t to)
{
    std::string text;
    for (std::size_t at = from; at < to; at++)
        text += (at > from ? ":" : "") + hex(groups[at], 1);
    return text;
}

std::string quad(const Groups &groups)
{
    const std::string low = std::to_string(groups[7] >> 8) + "." + std::to_string(groups[7] & 0xFF);
    return std::to_string(groups[6] >> 8) + "." + std::to_string(groups[6] & 0xFF) + "." + low;
}

std::size_t zeros_from(const Groups &groups, std::size_t at)
{
    const auto *start = groups.data() + at, *end = groups.data() + groups.size();
    return static_cast<std::size_t>(std::find_if(start, end, [](unsigned group) { return group != 0; }) - start);
}

template <typename Bytes> Value address(const Bytes &bytes)
{
    Groups groups;
    for (std::size_t at = 0; at < groups.size(); at++)
        groups[at] = static_cast<std::uint8_t>(bytes[2 * at]) * 256u + static_cast<std::uint8_t>(bytes[2 * at + 1]);
    const std::size_t first = zeros_from(groups, 0);
    if (first == 5 && groups[5] == 0xFFFF)
        return {quad(groups)};
    if (first == 6)
        return {"::" + quad(groups)};
    std::size_t start = 0;
    for (std::size_t at = 1; at < groups.size(); at++)
        if (zeros_from(groups, at) > zeros_from(groups, start))
            start = at;
    const std::size_t run = zeros_from(groups, start);
    if (run < 2)
        return {colons(groups, 0, groups.size())};
    return {colons(groups, 0, start) + "::" + colons(groups, start + run, groups.size()), run != groups.size()};
}

// ---- values that hang on more than one field

Value server(const nbft_info_record &info)
{
    return info.flags & NBFT_INFO_FLAG_DHCP_OVERRIDE ? address(info.dhcp_server) : Value{""};
}

// What is long enough for an address is one.
Value reached(std::string_view object)
{
    return object.size() < sizeof(nbft_info_record::ip_address) ? Value{escaped(object)} : address(object);
}

// Without the zero that stands last.
Value service(std::string_view object)
{
    if (!object.empty() && object.back() == '\0')
        object.remove_suffix(1);
    return {escaped(object)};
}

Value nid_type(unsigned type)
{
    constexpr std::array<const char *, 4> types = {"0", "eui64", "nguid", "uuid"};
    return type < types.size() ? Value{types[type], type != 0} : number(type);
}

// As its type has it; nothing where that has no name.
Value nid(const nbft_ssns_record &ssns)
{
    switch (ssns.nid_type) {
    case 1: return {hexes(ssns.nid).substr(0, sizeof ssns.nid)};
    case 2: return {hexes(ssns.nid)};
    case 3: return uuid(ssns.nid);
    default: return {""};
    }
}

Value queue_size(const nbft_ssns_extended_record &extended)
{
    const bool set = NBFT_GET(extended.flags) & NBFT_SSNS_EXTENDED_FLAG_QUEUE_SIZE_SET;
    return number(set ? NBFT_GET(extended.admin_queue_size) : 0);
}

// The positions of a list, behind one that leads, where there is one, and without it.
Value positions(std::optional<std::string_view> list, unsigned leads = 0)
{
    std::string text = leads != 0 ? std::to_string(leads) : "";
    for (const char byte : list.value_or("")) {
        const unsigned position = static_cast<std::uint8_t>(byte);
        if (position != leads)
            text += (text.empty() ? "" : ",") + std::to_string(position);
    }
    return {text};
}

// ---- what is shown of each record

enum class Shown { always, with_all };

struct Row {
    const char *title;
    Value (*value)(const Seen &at);
    Shown shown = Shown::always;
};

using Rows = std::vector<Row>;

const Rows header_columns = {
    {"OEM ID", [](const Seen &at) { return Value{escaped(at.header().oem_id)}; }},
    {"OEM Table ID", [](const Seen &at) { return Value{escaped(at.header().oem_table_id)}; }},
    {"OEM Revision", [](const Seen &at) { return number(NBFT_GET(at.header().oem_revision)); }},
    {"Creator ID", [](const Seen &at) { return Value{escaped(at.header().creator_id)}; }},
    {"Creator Revision", [](const Seen &at) { return number(NBFT_GET(at.header().creator_revision)); }},
    {"Driver Signature",
     [](const Seen &at) { return text(at.object(NBFT_HEADER, NBFT_HEADER_DRIVER_SIGNATURE_PLACE)); }}};

const Rows host_columns = {
    {"Host ID", [](const Seen &at) { return uuid(at.host().id); }},
    {"NQN", [](const Seen &at) { return text(at.object(NBFT_HOST, NBFT_HOST_NQN_PLACE)); }}};

const Rows host_lines = {
    {"host ID configured", [](const Seen &at) { return flag(at.host().flags & NBFT_HOST_FLAG_ID_CONFIGURED); }},
    {"host NQN configured", [](const Seen &at) { return flag(at.host().flags & NBFT_HOST_FLAG_NQN_CONFIGURED); }},
    {"flags", [](const Seen &at) { return number(at.host().flags); }, Shown::with_all},
    {"primary administrative host", [](const Seen &at) {
         return choice(primary, at.host().flags, NBFT_HOST_FLAG_PRIMARY_MASK, NBFT_HOST_FLAG_PRIMARY_SHIFT);
     }}};

const Rows subsystem_columns = {
    {"Idx", [](const Seen &at) { return number(at.position); }},
    {"NQN", [](const Seen &at) { return text(at.object(NBFT_SSNS, NBFT_SSNS_NQN_PLACE)); }},
    {"Trsp", [](const Seen &at) { return transport(at.ssns().transport_type); }},
    {"Address", [](const Seen &at) { return reached(at.object(NBFT_SSNS, NBFT_SSNS_ADDRESS_PLACE).value_or("")); }},
    {"SvcId", [](const Seen &at) { return service(at.object(NBFT_SSNS, NBFT_SSNS_SERVICE_PLACE).value_or("")); }},
    {"HFIs", [](const Seen &at) {
         return positions(at.object(NBFT_SSNS, NBFT_SSNS_SECONDARY_HFI_INDEXES_PLACE), at.ssns().primary_hfi_index);
     }}};

const Rows subsystem_lines = {
    {"port ID", [](const Seen &at) { return number(NBFT_GET(at.ssns().port_id)); }},
    {"NID type", [](const Seen &at) { return nid_type(at.ssns().nid_type); }},
    {"NID", [](const Seen &at) { return nid(at.ssns()); }},
    {"controller ID", [](const Seen &at) { return number(NBFT_GET(at.ssns_extended().controller_id)); }},
    {"admin queue size", [](const Seen &at) { return queue_size(at.ssns_extended()); }},
    {"DHCP root path",
     [](const Seen &at) { return text(at.object(NBFT_SSNS_EXTENDED, NBFT_SSNS_EXTENDED_ROOT_PATH_PLACE)); }},
    {"header digest", [](const Seen &at) {
         return flag(NBFT_GET(at.ssns().transport_flags) & NBFT_SSNS_TRANSPORT_FLAG_HEADER_DIGEST);
     }},
    {"data digest", [](const Seen &at) {
         return flag(NBFT_GET(at.ssns().transport_flags) & NBFT_SSNS_TRANSPORT_FLAG_DATA_DIGEST);
     }},
    {"discovered", [](const Seen &at) { return flag(NBFT_GET(at.ssns().flags) & NBFT_SSNS_FLAG_DISCOVERED); }},
    {"flags", [](const Seen &at) { return number(NBFT_GET(at.ssns().flags)); }, Shown::with_all},
    {"transport flags", [](const Seen &at) { return number(NBFT_GET(at.ssns().transport_flags)); }, Shown::with_all},
    {"not bootable", [](const Seen &at) { return flag(NBFT_GET(at.ssns().flags) & NBFT_SSNS_FLAG_NOT_BOOTABLE); }},
    {"root path used", [](const Seen &at) { return flag(NBFT_GET(at.ssns().flags) & NBFT_SSNS_FLAG_ROOT_PATH); }},
    {"separate discovery",
     [](const Seen &at) { return flag(NBFT_GET(at.ssns().flags) & NBFT_SSNS_FLAG_SEPARATE_DISCOVERY); }},
    {"availability", [](const Seen &at) {
         return choice(availability, NBFT_GET(at.ssns().flags), NBFT_SSNS_FLAG_AVAILABILITY_MASK,
                       NBFT_SSNS_FLAG_AVAILABILITY_SHIFT);
     }},
    {"transport flags used",
     [](const Seen &at) { return flag(NBFT_GET(at.ssns().transport_flags) & NBFT_SSNS_TRANSPORT_FLAG_IN_USE); }},
    {"discovery", [](const Seen &at) { return index(at.ssns().discovery_index); }},
    {"security", [](const Seen &at) { return index(at.ssns().security_index); }},
    {"primary HFI", [](const Seen &at) { return number(at.ssns().primary_hfi_index); }, Shown::with_all},
    {"secondary HFIs",
     [](const Seen &at) { return positions(at.object(NBFT_SSNS, NBFT_SSNS_SECONDARY_HFI_INDEXES_PLACE)); },
     Shown::with_all},
    {"address bytes", [](const Seen &at) { return bytes(at.object(NBFT_SSNS, NBFT_SSNS_ADDRESS_PLACE)); },
     Shown::with_all},
    {"service bytes", [](const Seen &at) { return bytes(at.object(NBFT_SSNS, NBFT_SSNS_SERVICE_PLACE)); },
     Shown::with_all},
    {"NSID", [](const Seen &at) { return number(NBFT_GET(at.ssns().nsid)); }},
    {"NID type number", [](const Seen &at) { return number(at.ssns().nid_type); }, Shown::with_all},
    {"NID bytes", [](const Seen &at) { return Value{hexes(at.ssns().nid)}; }, Shown::with_all},
    {"extended info flags",
     [](const Seen &at) { return if_there(at, NBFT_SSNS_EXTENDED, NBFT_GET(at.ssns_extended().flags)); },
     Shown::with_all},
    {"extended controller ID",
     [](const Seen &at) { return if_there(at, NBFT_SSNS_EXTENDED, NBFT_GET(at.ssns_extended().controller_id)); },
     Shown::with_all},
    {"extended admin queue size",
     [](const Seen &at) { return if_there(at, NBFT_SSNS_EXTENDED, NBFT_GET(at.ssns_extended().admin_queue_size)); },
     Shown::with_all}};

const Rows hfi_columns = {
    {"Idx", [](const Seen &at) { return number(at.position); }},
    {"Trsp", [](const Seen &at) { return transport(at.hfi().transport_type); }},
    {"PCI Addr", [](const Seen &at) { return pci(NBFT_GET(at.info().pci_routing_id)); }},
    {"MAC Addr", [](const Seen &at) { return Value{hexes(at.info().mac, ":")}; }},
    {"DHCP", [](const Seen &at) { return flag(at.info().flags & NBFT_INFO_FLAG_DHCP_OVERRIDE); }},
    {"IP Addr", [](const Seen &at) { return address(at.info().ip_address); }},
    {"Mask", [](const Seen &at) { return number(at.info().prefix); }},
    {"Gateway", [](const Seen &at) { return address(at.info().gateway); }},
    {"DNS", [](const Seen &at) { return address(at.info().primary_dns); }}};

const Rows hfi_lines = {
    {"VLAN", [](const Seen &at) { return number(NBFT_GET(at.info().vlan)); }},
    {"IP origin", [](const Seen &at) { return number(at.info().ip_origin); }},
    {"route metric", [](const Seen &at) { return number(NBFT_GET(at.info().route_metric)); }},
    {"secondary DNS", [](const Seen &at) { return address(at.info().secondary_dns); }},
    {"DHCP server", [](const Seen &at) { return server(at.info()); }},
    {"host name", [](const Seen &at) { return text(at.object(NBFT_HFI_INFO, NBFT_INFO_HOST_NAME_PLACE)); }},
    {"default route", [](const Seen &at) { return flag(at.info().flags & NBFT_INFO_FLAG_GLOBAL_ROUTE); }},
    {"info version", [](const Seen &at) { return number(at.info().info_version); }, Shown::with_all},
    {"flags", [](const Seen &at) { return number(at.info().flags); }, Shown::with_all},
    {"autoconfigured", [](const Seen &at) { return flag(at.info().flags & NBFT_INFO_FLAG_AUTOCONFIGURED); }},
    {"record flags", [](const Seen &at) { return number(at.hfi().flags); }, Shown::with_all},
    {"extended info flags",
     [](const Seen &at) { return if_there(at, NBFT_HFI_EXTENDED, NBFT_GET(at.hfi_extended().flags)); },
     Shown::with_all},
    {"IAID", [](const Seen &at) { return bytes(at.object(NBFT_HFI_EXTENDED, NBFT_HFI_EXTENDED_IAID_PLACE)); }},
    {"DUID", [](const Seen &at) { return bytes(at.object(NBFT_HFI_EXTENDED, NBFT_HFI_EXTENDED_DUID_PLACE)); }}};

const Rows discovery_columns = {
    {"Idx", [](const Seen &at) { return number(at.position); }},
    {"URI", [](const Seen &at) { return text(at.object(NBFT_DISCOVERY, NBFT_DISCOVERY_ADDRESS_PLACE)); }},
    {"NQN", [](const Seen &at) { return text(at.object(NBFT_DISCOVERY, NBFT_DISCOVERY_NQN_PLACE)); }}};

const Rows discovery_lines = {
    {"security", [](const Seen &at) { return index(at.discovery().security_index); }},
    {"HFI", [](const Seen &at) { return number(at.discovery().hfi_index); }},
    {"flags", [](const Seen &at) { return number(at.discovery().flags); }, Shown::with_all}};

const Rows security_columns = {
    {"Idx", [](const Seen &at) { return number(at.position); }},
    {"Flags", [](const Seen &at) { return number(NBFT_GET(at.security().flags)); }},
    {"Channels", [](const Seen &at) { return bytes(at.object(NBFT_SECURITY, NBFT_SECURITY_ALGORITHMS_PLACE)); }},
    {"Auths", [](const Seen &at) { return bytes(at.object(NBFT_SECURITY, NBFT_SECURITY_PROTOCOLS_PLACE)); }},
    {"Ciphers", [](const Seen &at) { return bytes(at.object(NBFT_SECURITY, NBFT_SECURITY_CIPHER_SUITES_PLACE)); }},
    {"Groups", [](const Seen &at) { return bytes(at.object(NBFT_SECURITY, NBFT_SECURITY_DH_GROUPS_PLACE)); }},
    {"Hashes", [](const Seen &at) { return bytes(at.object(NBFT_SECURITY, NBFT_SECURITY_HASH_FUNCTIONS_PLACE)); }},
    {"Keypath", [](const Seen &at) { return text(at.object(NBFT_SECURITY, NBFT_SECURITY_KEYPATH_PLACE)); }}};

const Rows security_lines = {
    {"secret type", [](const Seen &at) { return number(at.security().secret_type); }},
    {"authentication", [](const Seen &at) {
         return choice(wanted, NBFT_GET(at.security().flags), NBFT_SECURITY_FLAG_IN_BAND_MASK,
                       NBFT_SECURITY_FLAG_IN_BAND_SHIFT);
     }},
    {"secure channel", [](const Seen &at) {
         return choice(wanted, NBFT_GET(at.security().flags), NBFT_SECURITY_FLAG_CHANNEL_MASK,
                       NBFT_SECURITY_FLAG_CHANNEL_SHIFT);
     }},
    {"protocols chosen by", [](const Seen &at) {
         return choice(chosen_by, NBFT_GET(at.security().flags), NBFT_SECURITY_FLAG_PROTOCOLS_MASK,
                       NBFT_SECURITY_FLAG_PROTOCOLS_SHIFT);
     }},
    {"algorithms chosen by", [](const Seen &at) {
         return choice(chosen_by, NBFT_GET(at.security().flags), NBFT_SECURITY_FLAG_ALGORITHMS_MASK,
                       NBFT_SECURITY_FLAG_ALGORITHMS_SHIFT);
     }}};

struct Part {
    nbft_kind kind;
    const char *heading, *name; // of the table, and of one record
    const Rows &columns, &lines;
};

const Rows no_lines;
const std::vector<Part> parts = {
    {NBFT_HEADER, "NBFT Header", "header", header_columns, no_lines},
    {NBFT_HOST, "NBFT Host", "host", host_columns, host_lines},
    {NBFT_SSNS, "NBFT Subsystems", "subsystem", subsystem_columns, subsystem_lines},
    {NBFT_HFI, "NBFT HFIs", "hfi", hfi_columns, hfi_lines},
    {NBFT_DISCOVERY, "NBFT Discovery Controllers", "discovery", discovery_columns, discovery_lines},
    {NBFT_SECURITY, "NBFT Security", "security", security_columns, security_lines}};

// ---- how it is printed

std::string padded(std::string text, std::size_t width)
{
    text.resize(std::max(width, text.size()), ' ');
    return text;
}

void print_line(const std::vector<std::string> &cells, const std::vector<std::size_t> &widths, const char *between)
{
    for (std::size_t at = 0; at < cells.size(); at++)
        std::cout << (at > 0 ? between : "") << padded(cells[at], widths[at]);
    std::cout << '\n';
}

// What stands in the columns for a used record.
std::vector<std::string> cells_of(const Part &part, const Table &table, unsigned position)
{
    std::vector<std::string> cells;
    for (const Row &row : part.columns)
        cells.push_back(row.value({table, position}).text);
    return cells;
}

// A heading above no records would say nothing. Columns are as wide as the widest of titles and used records' cells.
void print_table(const Part &part, const Table &table)
{
    if (table.positions(part.kind).empty())
        return;
    std::vector<std::string> titles, rules;
    std::vector<std::size_t> widths;
    for (const Row &row : part.columns) {
        titles.emplace_back(row.title);
        std::size_t width = titles.back().size();
        for (const unsigned position : table.positions(part.kind))
            if (table.entry(part.kind, position).used)
                width = std::max(width, row.value({table, position}).text.size());
        widths.push_back(width);
        rules.emplace_back(width, '-');
    }
    std::cout << (&part == &parts.front() ? "" : "\n") << part.heading << ":\n\n";
    print_line(titles, widths, "|");
    print_line(rules, widths, "+");
    for (const unsigned position : table.positions(part.kind)) {
        if (table.entry(part.kind, position).used)
            print_line(cells_of(part, table, position), widths, "|");
        else
            std::cout << padded(std::to_string(position), widths[0]) << "|unused\n";
    }
}

// The name of a record stands above its first line.
void print_lines(const Part &part, const Seen &seen, bool all)
{
    bool none = true;
    for (const Row &row : part.lines) {
        const Value value = row.value(seen);
        if (!all && (row.shown == Shown::with_all || !value.says_something))
            continue;
        if (none)
            std::cout << '\n' << part.name << (seen.position > 0 ? " " + std::to_string(seen.position) : "") << ":\n";
        none = false;
        std::cout << "  " << row.title << ": " << value.text << '\n';
    }
}

void print_good(const Table &table, bool all)
{
    for (const Part &part : parts)
        print_table(part, table);
    for (const Part &part : parts)
        for (const unsigned position : table.positions(part.kind))
            if (table.entry(part.kind, position).used)
                print_lines(part, {table, position}, all);
}

void print_refused(std::uint32_t answer)
{
    constexpr std::array<const char *, 7> kinds = {"header", "control", "host", "HFI", "SSNS", "security", "discovery"};
    const unsigned kind = NBFT_KIND(answer), position = NBFT_POSITION(answer);
    std::cout << NBFT_NUMBER(answer) << ' ' << kind << ' ' << position << '\n';
    std::cout << nbft_words(answer) << ": " << kinds[kind];
    std::cout << (position > 0 ? " " + std::to_string(position) : "") << '\n';
}

// Empty where the file cannot be read.
std::string read_whole(const char *name)
{
    std::ifstream file(name, std::ios::binary);
    return {std::istreambuf_iterator<char>(file), {}};
}

} // namespace

int main(int count, char **words)
{
    const bool all = count > 1 && std::string_view(words[1]) == "--all";
    const std::string bytes = count == 2 + all ? read_whole(words[1 + all]) : "";
    if (bytes.empty()) {
        std::cerr << "usage: show [--all] FILE, which has bytes to read\n";
        return 2;
    }
    const Table table(bytes);
    if (table.answer() != NBFT_DONE) {
        print_refused(table.answer());
        return 1;
    }
    print_good(table, all);
    return 0;
}
