/* Each kind of call from C++, with both headers: a list, a working list, a text, a job to be written, a record, two channels, an order, an
 * inverse, the version and the words of a refusal. The figures are those of examples. Prints how many agree and exits 0, or says which do
 * not and exits 1. */
#include <cstdio>
#include <cstring>
#include <string>
#include <vector>
#include <zahupnik.h>
#include <zahupnik_refusal.h>

typedef std::vector<uint32_t> list;

static int agreed = 0, wrong = 0;

static void hold(const char *what, bool agrees) {
    if (agrees)
        agreed++;
    else {
        std::fprintf(stderr, "every_kind: %s: not what it should be\n", what);
        wrong++;
    }
}

static list numbers(uint32_t first, uint32_t second, uint32_t third) {
    list made;
    made.push_back(first);
    made.push_back(second);
    made.push_back(third);
    return made;
}

int main() {
    const uint32_t a[] = {1, 2}, b[] = {0, 3}, c[] = {1, 5};
    const list curve = numbers(3, 0, 1), powers = numbers(1, 3, 2);
    list output(3), work(ZAHUPNIK_LEAST_WORK);

    hold("the version of the library", zahupnik_version() == ZAHUPNIK_VERSION);

    uint32_t number = zahupnik_plain_expand(7, a, 2, b, 2, c, 2, curve.data(), curve.size(), output.data(), output.size());
    hold("Expand", number == ZAHUPNIK_FINISHED && output == powers);
    number = zahupnik_tree_decompose(7, a, 2, b, 2, c, 2, powers.data(), powers.size(), output.data(), output.size(), work.data(), work.size());
    hold("Decompose by the tree way", number == ZAHUPNIK_FINISHED && output == curve);
    number = zahupnik_norms(7, a, 2, b, 2, c, 2, output.data(), output.size());
    hold("Norms", number == ZAHUPNIK_FINISHED && output == numbers(1, 1, 5));

    const std::string job = "mod=7\na=1 2\nb=0 3\nc=1 5\nop=expand\nv=3 0 1\n", answer = "op=expand\nout=1 3 2\n";
    std::vector<uint8_t> text(ZAHUPNIK_LEAST_JOB_OUTPUT), answered(ZAHUPNIK_LEAST_TEXT_OUTPUT);
    uint32_t length = 0;
    number = zahupnik_write_job(7, a, 2, b, 2, c, 2, ZAHUPNIK_EXPAND, curve.data(), curve.size(), text.data(), text.size(), &length);
    hold("a job written", number == ZAHUPNIK_FINISHED && std::string(text.begin(), text.begin() + length) == job);
    number = zahupnik_convert_text(text.data(), length, answered.data(), answered.size(), work.data(), work.size(), &length);
    hold("the text call", number == ZAHUPNIK_FINISHED && std::string(answered.begin(), answered.begin() + length) == answer);

    zahupnik_change made = zahupnik_prepared_empty(7);
    for (int i = 0; i < 2 && made.answer == ZAHUPNIK_FINISHED; i++) made = zahupnik_prepared_append(made.family, a[i], b[i], c[i]);
    number = zahupnik_prepared_plain_expand(made.family, curve.data(), curve.size(), output.data(), output.size());
    hold("Expand on a record", number == ZAHUPNIK_FINISHED && output == powers);
    made.family.norms[0]++;
    number = zahupnik_prepared_norms(made.family, output.data(), output.size());
    hold("a damaged record", number == ZAHUPNIK_REFUSED_RECORD && output == powers);

    const uint32_t first[] = {95, 18, 92, 1}, second[] = {97, 18, 94, 1};
    int64_t joined[4] = {0};
    number = zahupnik_join(101, 103, first, 4, second, 4, joined, 4);
    hold("Join", number == ZAHUPNIK_FINISHED && joined[0] == -6 && joined[1] == 18 && joined[2] == -9 && joined[3] == 1);

    number = zahupnik_even_first(powers.data(), powers.size(), output.data(), output.size());
    hold("even powers first", number == ZAHUPNIK_FINISHED && output == numbers(1, 2, 3));

    uint32_t inverse = 0, factor = 0;
    number = zahupnik_invert(15, 6, &inverse, &factor);
    hold("Inverse", number == ZAHUPNIK_REFUSED_NO_INVERSE && factor == 3);
    hold("the words of a refusal", std::strstr(zahupnik_refusal(number), "no inverse") != NULL);

    std::printf("%d kinds agree\n", agreed);
    return wrong != 0;
}
