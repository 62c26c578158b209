/*
 * The calls on parts and rules in both hand-written forms: refusals, then the least order in n * n steps. The last positions are
 * settled along 'before', so that a part before another has no later one. Then, position by position: h is the nearest
 * last position up to which the parts left fill every position, and the lowest part is taken that has begun, ends at h or
 * before, and has no part left before it.
 */
#pragma once

#include <emmintrin.h>

#include <cstddef>
#include <cstdint>
#include <cstring>

#include "job.h"

namespace order {

constexpr size_t kMostParts = TIPSHARE_MOST_PARTS;

/* Parts and rules as they are lent. */
struct Given {
    const uint32_t *parts;
    size_t count;
    const uint32_t *rules;
    size_t rule_count;

    uint32_t first(size_t part) const { return parts[TIPSHARE_PART_PLACES * part]; }
    uint32_t last(size_t part) const { return parts[TIPSHARE_PART_PLACES * part + 1]; }
    /* Height decides: of a tall part the fine flag is ignored. */
    bool is_fine(size_t part) const { return parts[TIPSHARE_PART_PLACES * part + 2] != 0 && !is_tall(part); }
    bool is_tall(size_t part) const { return parts[TIPSHARE_PART_PLACES * part + 3] != 0; }
    uint32_t earlier(size_t rule) const { return rules[TIPSHARE_RULE_PLACES * rule]; }
    uint32_t later(size_t rule) const { return rules[TIPSHARE_RULE_PLACES * rule + 1]; }

    /* The first part without good positions, their number where there is none. */
    size_t first_bad_part() const
    {
        size_t part = 0;
        while (part < count && first(part) <= last(part) && last(part) < count) {
            part++;
        }
        return part;
    }

    /* Whether some rule has not two parts, several rules at once. */
    bool has_bad_rule() const
    {
        const auto number = static_cast<uint32_t>(count);
        uint32_t bad = 0;
        for (size_t rule = 0; rule < rule_count; rule++) {
            const uint32_t one = earlier(rule), other = later(rule);
            bad |= static_cast<uint32_t>(one >= number) | (other >= number) | (one == other);
        }
        return bad != 0;
    }

    /* The first rule without two parts, their number where there is none. */
    size_t first_bad_rule() const
    {
        if (!has_bad_rule()) {
            return rule_count;
        }
        size_t rule = 0;
        while (rule < rule_count && earlier(rule) < count && later(rule) < count && earlier(rule) != later(rule)) {
            rule++;
        }
        return rule;
    }
};

/* Parts, rules and answer of a call as they are lent. */
struct Lent {
    const uint32_t *parts;
    size_t parts_len;
    const uint32_t *rules;
    size_t rules_len;
    uint64_t *answer;
    size_t answer_len;
};

/* Answers a call on parts and rules: refused where the answer is short or a part or a rule not good, else by work(given). */
template <typename Work> [[gnu::always_inline]] inline uint32_t answer_on_parts(const Lent &lent, const Work &work)
{
    if (lent.answer_len < TIPSHARE_ANSWER_PLACES) {
        return TIPSHARE_SHORT_ANSWER;
    }
    if (lent.parts_len % TIPSHARE_PART_PLACES != 0 || lent.rules_len % TIPSHARE_RULE_PLACES != 0) {
        return job::refused(lent.answer, TIPSHARE_BROKEN_RECORD);
    }
    const Given given{lent.parts, lent.parts_len / TIPSHARE_PART_PLACES, lent.rules,
                      lent.rules_len / TIPSHARE_RULE_PLACES};
    if (given.count > kMostParts) {
        return job::refused(lent.answer, TIPSHARE_BAD_WINDOW);
    }
    const size_t part = given.first_bad_part();
    if (part < given.count) {
        return job::refused(lent.answer, TIPSHARE_BAD_WINDOW, part);
    }
    const size_t rule = given.first_bad_rule();
    if (rule < given.rule_count) {
        return job::refused(lent.answer, TIPSHARE_BAD_RULE, rule);
    }
    return work(given);
}

/* Answers by least(given, order), which fills the order of a good call, and is false where none obeys. */
template <typename Least>
[[gnu::always_inline]] inline uint32_t answer_order(const Lent &lent, uint8_t *order, size_t order_len,
                                                    const Least &least)
{
    return answer_on_parts(lent, [&](const Given &given) {
        if (order_len < given.count) {
            return job::refused(lent.answer, TIPSHARE_SHORT_ORDER);
        }
        uint8_t found[kMostParts];
        if (!least(given, found)) {
            return job::refused(lent.answer, TIPSHARE_NO_ORDER);
        }
        memcpy(order, found, given.count);
        return job::answered(lent.answer, TIPSHARE_ACCEPTED, 0, given.count, 0, 0);
    });
}

/* The first and the last position of each part. */
struct Windows {
    uint8_t first[kMostParts];
    uint8_t last[kMostParts];
};

/* Buffers for the positions of each part. */
struct LentWindows {
    uint8_t *first;
    size_t first_len;
    uint8_t *last;
    size_t last_len;
};

/* Answers by find(given, windows), which fills the positions of a good call, and is false where no order obeys. */
template <typename Find>
[[gnu::always_inline]] inline uint32_t answer_windows(const Lent &lent, const LentWindows &to, const Find &find)
{
    return answer_on_parts(lent, [&](const Given &given) {
        if (to.first_len < given.count || to.last_len < given.count) {
            return job::refused(lent.answer, TIPSHARE_SHORT_ORDER);
        }
        Windows found;
        if (!find(given, found)) {
            return job::refused(lent.answer, TIPSHARE_NO_ORDER);
        }
        memcpy(to.first, found.first, given.count);
        memcpy(to.last, found.last, given.count);
        return job::answered(lent.answer, TIPSHARE_ACCEPTED, 0, given.count, 0, 0);
    });
}

/* What an order by tips is lent beside an order: the tip of each part, and the mounted one. */
struct LentTips {
    const uint8_t *plan;
    size_t plan_len;
    size_t mounted;
};

/* The tip on the head before a position, or no tip. */
inline size_t tip_before(const LentTips &tips, const uint8_t *order, size_t position)
{
    return position == 0 ? tips.mounted : size_t{tips.plan[order[position - 1]]};
}

/* The first part whose tip is none, their number where there is none. */
inline size_t first_bad_tip(const LentTips &tips, size_t count)
{
    size_t part = 0;
    while (part < count && tips.plan[part] < job::kMostTips) {
        part++;
    }
    return part;
}

/* Answers by best(given, order), which fills the order by tips of a good call, and is false where none obeys. */
template <typename Best>
[[gnu::always_inline]] inline uint32_t answer_by_tips(const Lent &lent, const LentTips &tips, uint8_t *order,
                                                      size_t order_len, const Best &best)
{
    return answer_on_parts(lent, [&](const Given &given) {
        if (order_len < given.count) {
            return job::refused(lent.answer, TIPSHARE_SHORT_ORDER);
        }
        if (tips.plan_len < given.count) {
            return job::refused(lent.answer, TIPSHARE_SHORT_PLAN);
        }
        const size_t part = first_bad_tip(tips, given.count);
        if (part < given.count) {
            return job::refused(lent.answer, TIPSHARE_TIP_OUTSIDE, part);
        }
        if (tips.mounted >= job::kMostTips && tips.mounted != TIPSHARE_NO_TIP) {
            return job::refused(lent.answer, TIPSHARE_MOUNTED_OUTSIDE);
        }
        uint8_t found[kMostParts];
        if (!best(given, found)) {
            return job::refused(lent.answer, TIPSHARE_NO_ORDER);
        }
        memcpy(order, found, given.count);
        uint64_t changes = 0;
        for (size_t position = 0; position < given.count; position++) {
            const size_t before = tip_before(tips, found, position);
            changes += before != TIPSHARE_NO_TIP && before != tips.plan[found[position]];
        }
        return job::answered(lent.answer, TIPSHARE_ACCEPTED, 0, given.count, changes, 0);
    });
}

/* The same steps as the proved library, in plain loops over bytes. */
class Plain {
public:
    explicit Plain(const Given &given) : count(given.count)
    {
        for (size_t part = 0; part < count; part++) {
            first[part] = static_cast<uint8_t>(given.first(part));
            last[part] = static_cast<uint8_t>(given.last(part));
            is_fine[part] = given.is_fine(part);
            is_tall[part] = given.is_tall(part);
        }
        for (size_t one = 0; one < count; one++) {
            const uint8_t fine = is_fine[one], not_tall = is_tall[one] ^ 1;
            for (size_t other = 0; other < count; other++) {
                before[one][other] = static_cast<uint8_t>((fine & ~is_fine[other]) | (not_tall & is_tall[other]));
            }
        }
        for (size_t rule = 0; rule < given.rule_count; rule++) {
            before[given.earlier(rule)][given.later(rule)] = 1;
        }
    }

    bool least(uint8_t *order)
    {
        return best(order, [](size_t, size_t) { return true; });
    }

    /*
     * At each position the lowest of the wanted parts, given the position and the part, else the lowest of all. The last
     * positions are settled, so that a second order of the same parts begins with them.
     */
    template <typename IsWanted> bool best(uint8_t *order, const IsWanted &is_wanted)
    {
        settle();
        count_waits();
        for (size_t position = 0; position < count; position++) {
            const size_t bound = full_up_to(position);
            const auto is_candidate = [&](size_t part) {
                return waits[part] == 0 && left[part] != 0 && last[part] <= bound && first[part] <= position;
            };
            size_t part = 0;
            while (part < count && !(is_candidate(part) && is_wanted(position, part))) {
                part++;
            }
            for (size_t other = 0; part == count && other < count; other++) {
                part = is_candidate(other) ? other : count;
            }
            if (bound == count || part == count) {
                return false;
            }
            order[position] = static_cast<uint8_t>(part);
            left[part] = 0;
            for (size_t other = 0; other < count; other++) {
                waits[other] = static_cast<uint8_t>(waits[other] - before[part][other]);
            }
        }
        return true;
    }

    /* Halves the positions of each part: an order with the part no later than one of them has it no later than the next. */
    bool windows(Windows &found)
    {
        uint8_t order[kMostParts];
        if (!least(order)) {
            return false;
        }
        uint8_t settled[kMostParts];
        memcpy(settled, last, count);
        const auto has_order = [&](uint8_t &bound, size_t position) {
            const uint8_t kept = bound;
            bound = static_cast<uint8_t>(position);
            const bool has = least(order);
            memcpy(last, settled, count);
            bound = kept;
            return has;
        };
        for (size_t part = 0; part < count; part++) {
            size_t none = first[part], some = last[part];
            while (none < some) {
                const size_t middle = (none + some) / 2;
                if (has_order(last[part], middle)) {
                    some = middle;
                } else {
                    none = middle + 1;
                }
            }
            found.first[part] = static_cast<uint8_t>(some);
            size_t least_last = some, most = last[part];
            while (least_last < most) {
                const size_t middle = (least_last + most + 1) / 2;
                if (has_order(first[part], middle)) {
                    least_last = middle;
                } else {
                    most = middle - 1;
                }
            }
            found.last[part] = static_cast<uint8_t>(most);
        }
        return true;
    }

private:
    /* Each part once, by rising last position: those before it end no later. */
    void settle()
    {
        uint8_t settled[kMostParts] = {};
        for (size_t turn = 0; turn < count; turn++) {
            size_t nearest = count;
            unsigned end = kMostParts;
            for (size_t part = 0; part < count; part++) {
                if (settled[part] == 0 && last[part] < end) {
                    nearest = part;
                    end = last[part];
                }
            }
            settled[nearest] = 1;
            for (size_t one = 0; one < count; one++) {
                if (before[one][nearest] != 0 && end < last[one]) {
                    last[one] = static_cast<uint8_t>(end);
                }
            }
        }
    }

    /* How many parts must be before each, all of which are left. */
    void count_waits()
    {
        memset(left, 1, count);
        memset(waits, 0, count);
        for (size_t one = 0; one < count; one++) {
            for (size_t other = 0; other < count; other++) {
                waits[other] = static_cast<uint8_t>(waits[other] + before[one][other]);
            }
        }
    }

    /* The nearest end up to which the parts left fill every position from here; the number of parts where they are too many. */
    size_t full_up_to(size_t position) const
    {
        uint8_t ending[kMostParts] = {};
        for (size_t part = 0; part < count; part++) {
            ending[last[part]] = static_cast<uint8_t>(ending[last[part]] + left[part]);
        }
        size_t parts = 0;
        for (size_t end = 0; end < count; end++) {
            parts += ending[end];
            if (parts > (end < position ? 0 : end + 1 - position)) {
                return count;
            }
            if (end >= position && parts == end + 1 - position) {
                return end;
            }
        }
        return count;
    }

    const size_t count;
    uint8_t before[kMostParts][kMostParts];
    uint8_t first[kMostParts];
    uint8_t last[kMostParts];
    uint8_t is_fine[kMostParts];
    uint8_t is_tall[kMostParts];
    uint8_t left[kMostParts];
    uint8_t waits[kMostParts];
};

/* A set of parts, 64 a word: one word or two. */
template <size_t Words> struct Parts {
    uint64_t word[Words];

    static size_t word_of(size_t part) { return Words == 1 ? 0 : part / 64; }

    bool any() const { return (word[0] | word[Words - 1]) != 0; }
    bool has(size_t part) const { return (word[word_of(part)] >> part % 64 & 1) != 0; }
    /* The lowest of a set that is not empty. */
    size_t lowest() const
    {
        return Words == 1 || word[0] != 0 ? job::lowest(word[0]) : 64 + job::lowest(word[Words - 1]);
    }
    size_t size() const
    {
        size_t all = 0;
        for (size_t at = 0; at < Words; at++) {
            all += static_cast<size_t>(__builtin_popcountll(word[at]));
        }
        return all;
    }
    void put(size_t part) { word[word_of(part)] |= uint64_t{1} << part % 64; }
    void take(size_t part) { word[word_of(part)] &= ~(uint64_t{1} << part % 64); }

    template <typename Operation> static Parts each_word(const Operation &operation)
    {
        Parts result;
        for (size_t at = 0; at < Words; at++) {
            result.word[at] = operation(at);
        }
        return result;
    }
    friend Parts operator&(Parts a, Parts b)
    {
        return each_word([&](size_t at) { return a.word[at] & b.word[at]; });
    }
    friend Parts operator|(Parts a, Parts b)
    {
        return each_word([&](size_t at) { return a.word[at] | b.word[at]; });
    }
    friend Parts operator~(Parts a)
    {
        return each_word([&](size_t at) { return ~a.word[at]; });
    }

    /* Does this with each part, the lowest first. */
    template <typename Do> [[gnu::always_inline]] void each(const Do &with) const
    {
        for (size_t at = 0; at < Words; at++) {
            for (uint64_t rest = word[at]; rest != 0; rest &= rest - 1) {
                with(64 * at + job::lowest(rest));
            }
        }
    }
};

/*
 * Tuned: what is before a part by rules is a set. A part that must wait is looked at again when the one part leaves that
 * it waits for. By flags all parts of a kind wait for all of another kind, so that no part is looked at for them. How many
 * more parts could end at each position or before it is kept for 16 positions at once.
 */
template <size_t Words> class Tuned {
public:
    explicit Tuned(const Given &given) : given(given), count(given.count) { list_before(); }

    bool least(uint8_t *__restrict order)
    {
        return place(order, [](const Set &candidates, size_t) { return candidates; });
    }

    /* The lowest of those on the tip on the head, else the lowest. */
    bool by_tips(const LentTips &tips, uint8_t *__restrict order)
    {
        Set on_tip[job::kMostTips] = {};
        for (size_t part = 0; part < count; part++) {
            on_tip[tips.plan[part]].put(part);
        }
        return place(order, [&](const Set &candidates, size_t position) {
            const size_t tip = tip_before(tips, order, position);
            const Set wanted = tip == TIPSHARE_NO_TIP ? Set{} : candidates & on_tip[tip];
            return wanted.any() ? wanted : candidates;
        });
    }

    /*
     * The positions of each part in the orders found, in which it comes as early or as late as it can: its first position is
     * halved between the earliest that those before it leave and the earliest found, and its last likewise. The parts given,
     * whose positions are changed meanwhile, are these.
     */
    bool windows(uint32_t *parts, Windows &found)
    {
        uint8_t order[kMost];
        if (!least(order)) {
            return false;
        }
        memset(found.first, static_cast<int>(count), count);
        memset(found.last, 0, count);
        note(order, found);
        uint8_t low[kMost], high[kMost];
        narrow(order, low, high);
        const auto early = [&](size_t part) {
            return [=](const Set &candidates, size_t) { return preferred(candidates, candidates & ahead[part]); };
        };
        const auto late = [&](size_t part) {
            return [=](const Set &candidates, size_t) { return preferred(candidates, candidates & ~behind[part]); };
        };
        for (size_t part = 0; part < count; part++) {
            uint32_t &first = parts[TIPSHARE_PART_PLACES * part], &last = parts[TIPSHARE_PART_PLACES * part + 1];
            const uint32_t given_first = first, given_last = last;
            for (size_t none = low[part]; none < found.first[part];) {
                const size_t middle = (none + found.first[part]) / 2;
                last = static_cast<uint32_t>(middle);
                if (place(order, early(part))) {
                    note(order, found);
                } else {
                    none = middle + 1;
                }
            }
            last = given_last;
            for (size_t none = high[part]; found.last[part] < none;) {
                const size_t middle = (none + found.last[part] + 1) / 2;
                first = static_cast<uint32_t>(middle);
                if (place(order, late(part))) {
                    note(order, found);
                } else {
                    none = middle - 1;
                }
            }
            first = given_first;
        }
        return true;
    }

private:
    using Set = Parts<Words>;
    static constexpr size_t kStep = 16;
    static constexpr size_t kMost = 64 * Words;

    static Set preferred(const Set &candidates, const Set &wanted) { return wanted.any() ? wanted : candidates; }

    /* Takes the positions of an order into those found. */
    void note(const uint8_t *order, Windows &found) const
    {
        for (size_t position = 0; position < count; position++) {
            const auto here = static_cast<uint8_t>(position);
            uint8_t &first = found.first[order[position]], &last = found.last[order[position]];
            first = first < here ? first : here;
            last = last > here ? last : here;
        }
    }

    /* The positions that flags and rules leave to each part, and the parts ahead of it and behind it, itself among both. */
    void narrow(const uint8_t *order, uint8_t *low, uint8_t *high)
    {
        const size_t fine_parts = fine.size(), low_parts = this->low.size();
        for (size_t part = 0; part < count; part++) {
            const bool is_fine = fine.has(part), is_low = this->low.has(part);
            const size_t least = is_low ? (is_fine ? 0 : fine_parts) : low_parts;
            const size_t most = (is_fine ? fine_parts : is_low ? low_parts : count) - 1;
            low[part] = static_cast<uint8_t>(least > given.first(part) ? least : given.first(part));
            high[part] = static_cast<uint8_t>(most < given.last(part) ? most : given.last(part));
            ahead[part] = behind[part] = {};
        }
        for (size_t position = 0; position < count; position++) {
            const size_t part = order[position];
            before[part].each([&](size_t other) {
                low[part] = low[part] > low[other] ? low[part] : static_cast<uint8_t>(low[other] + 1);
                ahead[part] = ahead[part] | ahead[other];
            });
            const size_t others = ahead[part].size();
            low[part] = low[part] > others ? low[part] : static_cast<uint8_t>(others);
            ahead[part].put(part);
        }
        for (size_t position = count; position-- > 0;) {
            const size_t part = order[position];
            const size_t most = count - 1 - behind[part].size();
            high[part] = high[part] < most ? high[part] : static_cast<uint8_t>(most);
            behind[part].put(part);
            before[part].each([&](size_t other) {
                high[other] = high[other] < high[part] ? high[other] : static_cast<uint8_t>(high[part] - 1);
                behind[other] = behind[other] | behind[part];
            });
        }
    }

    /* At each position the lowest of those that pick leaves of the candidates. */
    template <typename Pick> [[gnu::always_inline]] bool place(uint8_t *__restrict order, const Pick &pick)
    {
        if (!settle()) {
            return false;
        }
        begin();
        for (size_t position = 0; position < count; position++) {
            open(position);
            const Set candidates = ready & by_flags() & up_to[full_up_to(position)];
            if (!candidates.any()) {
                return false;
            }
            const size_t part = pick(candidates, position).lowest();
            order[position] = static_cast<uint8_t>(part);
            leave(part);
            count_down(position, last[part]);
        }
        return true;
    }

    void list_before()
    {
        all = fine = {};
        Set tall{};
        for (size_t part = 0; part < count; part++) {
            const size_t at = Set::word_of(part);
            all.word[at] |= uint64_t{1} << part % 64;
            fine.word[at] |= uint64_t{given.is_fine(part)} << part % 64;
            tall.word[at] |= uint64_t{given.is_tall(part)} << part % 64;
        }
        low = all & ~tall;
        memset(before, 0, count * sizeof before[0]);
        for (size_t rule = 0; rule < given.rule_count; rule++) {
            before[given.later(rule)].put(given.earlier(rule));
        }
    }

    /* Last positions by rising end; false where too many parts end somewhere. */
    bool settle()
    {
        Set ending[kMost];
        memset(ending, 0, count * sizeof ending[0]);
        for (size_t part = 0; part < count; part++) {
            ending[given.last(part)].put(part);
        }
        Set settled{};
        size_t parts = 0;
        for (size_t end = 0; end < count; end++) {
            for (Set now = ending[end] & ~settled; now.any();) {
                const size_t part = now.lowest();
                settled.put(part);
                last[part] = static_cast<uint8_t>(end);
                parts++;
                now = (now | before[part]) & ~settled;
                // The first part that is not fine settles all fine ones, and the first tall one all that are not.
                now = fine.has(part) ? now : now | (fine & ~settled);
                now = low.has(part) ? now : now | (low & ~settled);
            }
            if (parts > end + 1) {
                return false;
            }
            up_to[end] = settled;
            room[end] = static_cast<int8_t>(end + 1 - parts);
        }
        // Never full behind the last position, and never counted down so far.
        for (size_t end = count; end < kMost; end++) {
            room[end] = 127;
        }
        return true;
    }

    void begin()
    {
        memset(beginning, 0, count * sizeof beginning[0]);
        for (size_t part = 0; part < count; part++) {
            beginning[given.first(part)].put(part);
            waiting[part] = {};
        }
        left = all;
        ready = {};
    }

    /* Fine parts while some are left, and parts that are not tall while some are. */
    Set by_flags() const
    {
        const Set fine_left = fine & left, low_left = low & left;
        return (fine_left.any() ? fine_left : left) & (low_left.any() ? low_left : left);
    }

    /* Set that begin here are ready, or wait for one that is before them. */
    void open(size_t position)
    {
        beginning[position].each([&](size_t part) { look_at(part); });
    }

    void look_at(size_t part)
    {
        const Set blocking = before[part] & left;
        if (blocking.any()) {
            waiting[blocking.lowest()].put(part);
        } else {
            ready.put(part);
        }
    }

    void leave(size_t part)
    {
        left.take(part);
        ready.take(part);
        waiting[part].each([&](size_t other) { look_at(other); });
    }

    /* One part less can end before this position; what is behind is not asked for again. */
    void count_down(size_t position, size_t end)
    {
        const __m128i steps = _mm_setr_epi8(0, 1, 2, 3, 4, 5, 6, 7, 8, 9, 10, 11, 12, 13, 14, 15);
        const __m128i ends = _mm_set1_epi8(static_cast<char>(end));
        for (size_t at = position / kStep * kStep; at < end; at += kStep) {
            auto *const here = reinterpret_cast<__m128i *>(room + at);
            // -1 at each position before the end.
            const __m128i before_end = _mm_cmplt_epi8(_mm_add_epi8(steps, _mm_set1_epi8(static_cast<char>(at))), ends);
            _mm_store_si128(here, _mm_add_epi8(_mm_load_si128(here), before_end));
        }
    }

    /* The nearest position from here on with no room before its end; there is one, the last. */
    size_t full_up_to(size_t position) const
    {
        size_t at = position / kStep * kStep;
        unsigned full = full_at(at) >> position % kStep << position % kStep;
        while (full == 0) {
            at += kStep;
            full = full_at(at);
        }
        return at + job::lowest(full);
    }

    unsigned full_at(size_t at) const
    {
        const __m128i sixteen = _mm_load_si128(reinterpret_cast<const __m128i *>(room + at));
        return static_cast<unsigned>(_mm_movemask_epi8(_mm_cmpeq_epi8(sixteen, _mm_setzero_si128())));
    }

    const Given &given;
    const size_t count;
    alignas(16) int8_t room[kMost];
    uint8_t last[kMost];
    // Fine ones, and those that are not tall.
    Set fine, low;
    Set all, left, ready;
    Set before[kMost];
    Set up_to[kMost];
    Set beginning[kMost];
    // Those that are looked at again when this one leaves.
    Set waiting[kMost];
    // Of windows alone.
    Set ahead[kMost];
    Set behind[kMost];
};

}  // namespace order
