/* Uses odht.hpp: a map of numbers, a map with 16-byte keys, a set, openings that fail, walks, and tables that own their
   bytes and grow. The pairs of the first map are those of the worked example of docs/FORMAT.md: (1, 2) in slot 5,
   (5, 6) in slot 9 and (3, 4) in slot 15. */
#include "odht.hpp"

#include <algorithm>
#include <cstdio>
#include <cstring>
#include <map>
#include <numeric>
#include <set>

static int wrong = 0;

#define EXPECT(what) \
    do { \
        if (!(what)) { \
            std::printf("line %d: not %s\n", __LINE__, #what); \
            wrong = 1; \
        } \
    } while (0)

using Numbers = odht::view<std::uint64_t, std::uint32_t>;
using Hash = odht::bytes<16>;

/* Returns a hash whose bytes are all this number, so it is in the slot of this number. */
static Hash hash(std::uint8_t byte)
{
    Hash all;
    all.fill(byte);
    return all;
}

static std::vector<std::uint8_t> three_pairs()
{
    const std::uint64_t keys[] = {1, 3, 5};
    const std::uint32_t values[] = {2, 4, 6};
    std::vector<std::uint8_t> made;
    EXPECT(odht::build(keys, values, 3, 95, made) == ODHT_OK);
    return made;
}

static void finds(const std::vector<std::uint8_t> &bytes)
{
    const std::optional<Numbers> table = Numbers::open(bytes.data(), bytes.size());
    EXPECT(table.has_value() && table->size() == 3 && !table->empty());
    EXPECT(table->data() == bytes.data() && table->size_bytes() == 256);
    EXPECT(table->find(1) == 2u && table->find(3) == 4u && table->find(5) == 6u);
    EXPECT(!table->find(2) && !table->find(0) && table->contains(3) && !table->contains(4));
    const std::uint64_t keys[] = {5, 4, 1};
    std::uint32_t values[] = {7, 7, 7};
    std::uint8_t found[] = {7, 7, 7};
    table->find_all(keys, values, found, 3);
    EXPECT(values[0] == 6 && values[1] == 7 && values[2] == 2);
    EXPECT(found[0] == 1 && found[1] == 0 && found[2] == 1);
    std::uint32_t value = 0;
    EXPECT(odht_u64_u32_view_get(&table->c_view(), 3, &value) == ODHT_OK && value == 4);
}

static void walks(const std::vector<std::uint8_t> &bytes)
{
    const Numbers table = *Numbers::open(bytes.data(), bytes.size());
    std::vector<std::pair<std::uint64_t, std::uint32_t>> pairs;
    for (auto [key, value] : table)
        pairs.emplace_back(key, value);
    EXPECT((pairs == decltype(pairs){{1, 2}, {5, 6}, {3, 4}}));
    const std::map<std::uint64_t, std::uint32_t> map(table.begin(), table.end());
    EXPECT((map == std::map<std::uint64_t, std::uint32_t>{{1, 2}, {3, 4}, {5, 6}}));
    EXPECT(std::count_if(table.begin(), table.end(), [](auto pair) { return pair.second > 3; }) == 2);
    Numbers::iterator first = table.begin(), second = first++;
    EXPECT((*second).first == 1 && (*first).first == 5 && first != second && ++second == first);
    EXPECT(table.begin() != table.end() && ++++++table.begin() == table.end() && table.end() == Numbers::iterator());
}

/* More pairs than a walk reads at a time. The sum of the 40 keys is 820. The values are ten times the keys. */
static void many()
{
    std::vector<std::uint64_t> keys(40);
    std::vector<std::uint32_t> values;
    std::iota(keys.begin(), keys.end(), 1);
    for (std::uint64_t key : keys)
        values.push_back(static_cast<std::uint32_t>(10 * key));
    for (std::size_t pairs : {40u, 32u, 16u, 15u, 1u, 0u}) {
        std::vector<std::uint8_t> made;
        EXPECT(odht::build(keys.data(), values.data(), pairs, 87, made) == ODHT_OK);
        EXPECT(made.size() == (pairs == 40 || pairs == 32 ? 880u : pairs > 13 ? 464u : 256u));
        const Numbers table = Numbers::open(made.data(), made.size()).value();
        std::uint64_t sum = 0, both = 0, count = 0;
        for (auto [key, value] : table)
            sum += key, both += value, count++;
        EXPECT(count == pairs && sum == pairs * (pairs + 1) / 2 && both == 10 * sum);
    }
}

static void hashes_and_sets()
{
    const Hash keys[] = {hash(1), hash(2), hash(7)};
    const std::uint32_t values[] = {100, 200, 700};
    std::vector<std::uint8_t> made;
    EXPECT(odht::build(keys, values, 3, 50, made) == ODHT_OK && made.size() == 32 + 16 * 20 + 32);
    const auto table = odht::view<Hash, std::uint32_t>::open(made.data(), made.size());
    EXPECT(table && table->find(hash(7)) == 700u && !table->find(hash(3)));
    EXPECT((*table->begin()).first == hash(1) && (*++table->begin()).second == 200);
#if ODHT_TAKES_NULL
    EXPECT(odht::build(keys, 3, 87, made) == ODHT_OK && made.size() == 32 + 16 * 16 + 32);
    const auto set = odht::view<Hash>::open(made.data(), made.size());
    EXPECT(set && set->size() == 3 && set->contains(hash(2)) && !set->contains(hash(3)));
    const std::set<Hash> all(set->begin(), set->end());
    EXPECT((all == std::set<Hash>{hash(1), hash(2), hash(7)}));
    const Hash asked[] = {hash(3), hash(7)};
    std::uint8_t found[] = {7, 7};
    set->contains_all(asked, found, 2);
    EXPECT(found[0] == 0 && found[1] == 1);
    for (const Hash &key : *set)
        EXPECT(key[0] == key[15]);
#endif
    const auto pairs = odht::view<Hash, Hash>::open(made.data(), made.size());
    EXPECT(!pairs);
}

/* The slots of errors that opening and checks return. The keys are in slots 5, 9 and 15. */
static void places(std::vector<std::uint8_t> bytes)
{
    std::size_t slot = 0;
    EXPECT(Numbers::check_at(bytes.data(), bytes.size(), slot) == ODHT_OK && slot == ODHT_NO_SLOT);
    EXPECT(Numbers::check_within_at(bytes.data(), bytes.size(), 0, slot) == ODHT_SEARCH_TOO_LONG && slot == 0);
    bytes[227] = 200;
    EXPECT(Numbers::check_at(bytes.data(), bytes.size(), slot) == ODHT_BAD_FREE_CONTROL && slot == 3);
    bytes[229] = 0;
    EXPECT(Numbers::open_at(bytes.data(), bytes.size(), slot) == ODHT_CONTROL_MISMATCH && slot == 5);
}

static void failures(std::vector<std::uint8_t> bytes)
{
    odht::status why = ODHT_FULL;
    EXPECT(Numbers::open(bytes.data(), bytes.size(), &why) && why == ODHT_OK);
    EXPECT(!Numbers::open(bytes.data(), 7, &why) && why == ODHT_TOO_SHORT);
    EXPECT(!Numbers::open(bytes.data(), 255, &why) && why == ODHT_WRONG_LENGTH);
    EXPECT(!(odht::view<std::uint64_t, std::uint64_t>::open(bytes.data(), 256, &why)) && why == ODHT_WRONG_SIZE);
    std::vector<std::uint8_t> longer = bytes;
    longer.insert(longer.end(), {9, 9, 9});
    EXPECT(!Numbers::open(longer.data(), longer.size()));
    const auto table = Numbers::open_prefix(longer.data(), longer.size(), &why);
    EXPECT(table && why == ODHT_OK && table->size_bytes() == 256 && table->find(5) == 6u);
    EXPECT(!Numbers::open_prefix(bytes.data(), 255, &why) && why == ODHT_WRONG_LENGTH);
    std::vector<std::uint8_t> made(3);
    const std::uint64_t key = 1;
    const std::uint32_t value = 2;
    EXPECT(odht::build(&key, &value, 1, 0, made) == ODHT_BAD_PERCENT && made.size() == 3);
    EXPECT(Numbers::check(bytes.data(), bytes.size()) == ODHT_OK);
    EXPECT(Numbers::check_within(bytes.data(), bytes.size()) == ODHT_OK);
    places(bytes);
    bytes[8] = 4;
    EXPECT(Numbers::check(bytes.data(), bytes.size()) == ODHT_WRONG_ITEM_COUNT);
    EXPECT(Numbers::open(bytes.data(), bytes.size())->size() == 4);
#if defined(__cpp_exceptions)
    EXPECT(Numbers::open_or_throw(bytes.data(), bytes.size()).contains(1));
    try {
        (void)Numbers::open_or_throw(bytes.data(), 31);
        EXPECT(!"an exception");
    } catch (const odht::error &thrown) {
        EXPECT(thrown.why() == ODHT_TOO_SHORT && std::strcmp(thrown.what(), "too short") == 0);
    }
#endif
}

using Owning = odht::table<std::uint64_t, std::uint32_t>;

/* At 87 percent the maximum of 16, 32 and 64 slots is 13, 27 and 55 items. A table of s slots takes 32 + 13 * s + 16
   bytes. The homes of the keys 1 to 40 differ, so all ways to make the table give the same bytes. */
static void owning_grows()
{
    Owning table;
    std::vector<std::uint64_t> keys;
    std::vector<std::uint32_t> values;
    EXPECT(table.empty() && table.size_bytes() == 256 && !table.contains(1) && table.begin() == table.end());
    for (std::uint32_t key = 1; key <= 40; key++) {
        EXPECT(table.insert(key, 10 * key) == ODHT_OK && table.size() == key);
        EXPECT(table.size_bytes() == (key <= 13 ? 256u : key <= 27 ? 464u : 880u));
        keys.push_back(key), values.push_back(10 * key);
        std::vector<std::uint8_t> made;
        EXPECT(odht::build(keys.data(), values.data(), key, 87, made) == ODHT_OK);
        EXPECT(table.size_bytes() == made.size() && std::memcmp(table.data(), made.data(), made.size()) == 0);
    }
    std::uint32_t former = 7;
    EXPECT(table.insert(41, 1, &former) == ODHT_OK && former == 7 && table.find(41) == 1u);
    EXPECT(table.insert(3, 4, &former) == ODHT_REPLACED && former == 30 && table.find(3) == 4u);
    EXPECT(table.insert(3, 5) == ODHT_REPLACED && table.find(3) == 5u && !table.find(42) && table.size() == 41);
    std::uint64_t sum = 0;
    for (auto [key, value] : table)
        sum += key + value;
    EXPECT(sum == 861 + 8200 + 1 + 5 - 30);
    const auto view = table.open_view();
    EXPECT(view && view->data() == table.data() && view->find(40) == 400u);
}

static void owning_is_copied_and_moved()
{
    Owning first;
    first.insert(1, 2);
    Owning second = first;
    second.insert(3, 4);
    EXPECT(first.size() == 1 && second.size() == 2 && second.find(1) == 2u && !first.contains(3));
    Owning third = std::move(second);
    EXPECT(third.size() == 2 && second.size() == 0 && second.size_bytes() == 0 && second.empty());
    EXPECT(!second.contains(1) && !second.find(1) && second.begin() == second.end() && !second.open_view());
    EXPECT(second.insert(5, 6) == ODHT_OK && second.find(5) == 6u && second.size_bytes() == 256);
    const std::vector<std::uint8_t> bytes = third.take_bytes();
    EXPECT(bytes.size() == 256 && third.empty() && Numbers::check(bytes.data(), bytes.size()) == ODHT_OK);
    first = second;
    EXPECT(first.find(5) == 6u && !first.contains(1));
}

static void owning_of_bytes(std::vector<std::uint8_t> bytes)
{
    odht::status why = ODHT_FULL;
    auto table = Owning::from_bytes(bytes.data(), bytes.size(), &why);
    EXPECT(table && why == ODHT_OK && table->data() != bytes.data() && table->find(3) == 4u);
    EXPECT(table->insert(3, 9) == ODHT_REPLACED && bytes == three_pairs());
    bytes[255] = 0; /* in the mirror, which opening does not check */
    EXPECT(Numbers::open(bytes.data(), bytes.size()));
    EXPECT(!Owning::from_bytes(bytes.data(), bytes.size(), &why) && why == ODHT_MIRROR_MISMATCH);
    table = Owning::with_capacity(1000, 87, &why);
    EXPECT(table && why == ODHT_OK && table->size_bytes() == 32 + 13 * 2048 + 16);
    EXPECT(!Owning::with_capacity(3, 0, &why) && why == ODHT_BAD_PERCENT);
    EXPECT(!Owning::with_capacity(SIZE_MAX, 87, &why) && why == ODHT_CAPACITY);
    /* at 1 percent the maximum of 16 slots is 0 items, and that of 128 slots is 1 */
    table = Owning::with_capacity(0, 1);
    EXPECT(table->size_bytes() == 256 && table->insert(1, 2) == ODHT_OK && table->find(1) == 2u);
    EXPECT(table->size_bytes() == 32 + 13 * 128 + 16);
}

static void owning_hashes_and_sets()
{
    odht::table<Hash, Hash> hashes;
    Hash former = hash(9);
    for (std::uint8_t byte = 0; byte < 100; byte++)
        EXPECT(hashes.insert(hash(byte), hash(1), &former) == ODHT_OK && former == hash(9));
    EXPECT(hashes.size() == 100 && hashes.find(hash(99)) == hash(1) && !hashes.contains(hash(100)));
    EXPECT(hashes.insert(hash(5), hash(2), &former) == ODHT_REPLACED && former == hash(1));
#if ODHT_TAKES_NULL
    odht::table<std::uint64_t> set;
    for (std::uint64_t key = 0; key < 50; key++)
        EXPECT(set.insert(key) == ODHT_OK && set.insert(key) == ODHT_REPLACED);
    const std::set<std::uint64_t> all(set.begin(), set.end());
    EXPECT(all.size() == 50 && *all.begin() == 0 && *all.rbegin() == 49);
    EXPECT(set.size() == 50 && set.contains(49) && !set.contains(50));
#endif
}

static void spans(const std::vector<std::uint8_t> &bytes)
{
#if defined(__cpp_lib_span) && defined(__cpp_concepts) && ODHT_TAKES_NULL
    const auto table = Numbers::open(std::span(bytes));
    EXPECT(table && table->as_bytes().size() == 256 && Numbers::check(bytes) == ODHT_OK);
    EXPECT(Numbers::open(std::as_bytes(std::span(bytes)))->find(3) == 4u);
    const std::array<std::uint64_t, 2> keys = {3, 4};
    std::array<std::uint32_t, 2> values = {7, 7};
    std::array<std::uint8_t, 2> found = {7, 7};
    EXPECT(table->find_all(keys, values, found) == ODHT_OK);
    EXPECT(values[0] == 4 && values[1] == 7 && found[0] == 1 && found[1] == 0);
    EXPECT(table->find_all(keys, values, std::span(found).first(1)) == ODHT_BAD_LENGTHS);
    const std::vector<Hash> hashes = {hash(4), hash(5)};
    std::vector<std::uint8_t> made;
    EXPECT(odht::build(hashes.data(), 1, 87, made) == ODHT_OK);
    const auto set = odht::view<Hash>::open(made);
    EXPECT(set->contains_all(hashes, found) == ODHT_OK && found[0] == 1 && found[1] == 0);
    EXPECT(set->contains_all(hashes, std::span(found).first(1)) == ODHT_BAD_LENGTHS);
#else
    (void)bytes;
#endif
}

int main()
{
    const std::vector<std::uint8_t> bytes = three_pairs();
    EXPECT(bytes.size() == 256);
    finds(bytes);
    walks(bytes);
    many();
    hashes_and_sets();
    failures(bytes);
    spans(bytes);
    owning_grows();
    owning_is_copied_and_moved();
    owning_of_bytes(bytes);
    owning_hashes_and_sets();
    if (!wrong)
        std::puts("odht.hpp: well");
    return wrong;
}
