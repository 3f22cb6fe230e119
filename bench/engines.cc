// Times several engines on many patterns over one text: engines [-v] TEXT PATTERNS NEW [OLD], where TEXT is a file without newlines, PATTERNS a file with a pattern on each line, and
// NEW and OLD are builds of this library as shared objects (bench/engines-side.c). For each line length: every engine goes over all lines, in turn, the best of the rounds counts.
// bench/engines builds and calls it; HAVE_RE2 and HAVE_PCRE2 say which of the engines are there.
#include <algorithm>
#include <chrono>
#include <cmath>
#include <cstdint>
#include <cstdio>
#include <cstdlib>
#include <fstream>
#include <iterator>
#include <memory>
#include <stdexcept>
#include <string>
#include <vector>
#include <dlfcn.h>
#include <regex.h>
#ifdef HAVE_RE2
#include <re2/re2.h>
#endif
#ifdef HAVE_PCRE2
#define PCRE2_CODE_UNIT_WIDTH 8
#include <pcre2.h>
#endif

namespace {

using Lines = std::vector<std::string>;

const int ROUNDS = 5;
const double SLOW = 2e9;     // nanoseconds: what takes longer in its first round gets no other
const size_t BYTES = 65536;  // of text, and one line more
const size_t LENGTHS[] = {64, 1024, 16384};

// Both spans of a line, as yindorka_spans writes them; a line without a match has none.
struct Spans {
    bool found = false;
    size_t at[3] = {0, 0, 0};
};

// Three numbers in one question, so that no span is forgotten.
bool same(const Spans &a, const Spans &b)
{
    return a.found == b.found && std::equal(a.at, a.at + 3, b.at);
}

// An engine has one pattern at a time. `pass` goes over all lines within one call, so that no virtual call falls on a line, and returns a sum of what it found, so that the compiler
// cannot leave the work out.
class Engine {
public:
    explicit Engine(std::string called) : name(std::move(called)) {}
    virtual ~Engine() = default;
    virtual bool take(const std::string &pattern) = 0;
    virtual bool whole(const std::string &) const { return true; }  // whether it was the whole pattern that it took
    virtual size_t pass(const Lines &lines) = 0;
    const std::string name;
};

// This library, by one of its builds: both spans. The size of the tables is asked of the build, since another one may have others.
class Ours : public Engine {
public:
    Ours(const std::string &called, const char *file) : Engine(called), object(dlopen(file, RTLD_NOW | RTLD_LOCAL))
    {
        if (!object)
            throw std::runtime_error(dlerror());
        find("side_read", read);
        find("side_spans", cut);
        size_t (*size)();
        find("side_size", size);
        tables.reset(std::aligned_alloc(64, (size() + 63) / 64 * 64));
    }

    bool take(const std::string &pattern) override { return read(bytes(pattern), pattern.size(), tables.get()); }

    // One line, for the comparison of spans.
    Spans spans(const std::string &line) const
    {
        Spans s;
        s.found = cut(bytes(line), line.size(), tables.get(), s.at);
        return s;
    }

    size_t pass(const Lines &lines) override
    {
        size_t sum = 0;
        for (const std::string &line : lines) {
            size_t at[3];
            if (cut(bytes(line), line.size(), tables.get(), at))
                sum += at[0] + at[1] + at[2];
        }
        return sum;
    }

private:
    static const uint8_t *bytes(const std::string &s) { return reinterpret_cast<const uint8_t *>(s.data()); }

    // A missing name would mean that another shared object was given.
    template <typename F> void find(const char *symbol, F &f)
    {
        f = reinterpret_cast<F>(dlsym(object, symbol));
        if (!f)
            throw std::runtime_error(dlerror());
    }

    void *object;
    int (*read)(const uint8_t *, size_t, void *);
    int (*cut)(const uint8_t *, size_t, const void *, size_t *);
    std::unique_ptr<void, decltype(&std::free)> tables{nullptr, std::free};
};

#ifdef HAVE_RE2
// RE2 has one reading to an object, so both spans take two objects. The leftmost-first one goes first: where it finds nothing, the other need not look.
class Re2 : public Engine {
public:
    Re2() : Engine("RE2, both spans") {}

    // Latin-1, since our patterns are patterns of bytes.
    bool take(const std::string &pattern) override
    {
        RE2::Options options;
        options.set_encoding(RE2::Options::EncodingLatin1);
        options.set_log_errors(false);
        greedy = std::make_unique<RE2>(pattern, options);
        options.set_longest_match(true);
        posix = std::make_unique<RE2>(pattern, options);
        return greedy->ok() && posix->ok();
    }

    Spans spans(const std::string &line) const
    {
        re2::StringPiece text(line), first, longest;
        Spans s;
        s.found = greedy->Match(text, 0, line.size(), RE2::UNANCHORED, &first, 1) && posix->Match(text, 0, line.size(), RE2::UNANCHORED, &longest, 1);
        if (s.found) {
            s.at[0] = static_cast<size_t>(first.data() - line.data());
            s.at[1] = s.at[0] + first.size();
            s.at[2] = static_cast<size_t>(longest.data() - line.data()) + longest.size();
        }
        return s;
    }

    size_t pass(const Lines &lines) override
    {
        size_t sum = 0;
        for (const std::string &line : lines) {
            Spans s = spans(line);
            sum += s.at[0] + s.at[1] + s.at[2];
        }
        return sum;
    }

private:
    std::unique_ptr<RE2> greedy, posix;
};
#endif

#ifdef HAVE_PCRE2
// PCRE2 with its compiler to machine code: the greedy span. It backtracks, and may give up on a line at one of its limits; such lines are counted, since they flatter its time.
class Pcre2 : public Engine {
public:
    Pcre2() : Engine("PCRE2 with JIT, greedy span") {}
    ~Pcre2() override { pcre2_code_free(code); }

    bool take(const std::string &pattern) override
    {
        int error;
        PCRE2_SIZE place;
        pcre2_code_free(code);
        code = pcre2_compile(reinterpret_cast<PCRE2_SPTR>(pattern.data()), pattern.size(), 0, &error, &place, nullptr);
        return code && pcre2_jit_compile(code, PCRE2_JIT_COMPLETE) == 0;
    }

    size_t pass(const Lines &lines) override
    {
        size_t sum = 0;
        given_up = 0;
        for (const std::string &line : lines) {
            int found = pcre2_match(code, reinterpret_cast<PCRE2_SPTR>(line.data()), line.size(), 0, 0, data.get(), nullptr);
            given_up += found < PCRE2_ERROR_NOMATCH;
            if (found > 0)
                sum += pcre2_get_ovector_pointer(data.get())[1];
        }
        return sum;
    }

    size_t given_up = 0;

private:
    pcre2_code *code = nullptr;
    std::unique_ptr<pcre2_match_data, decltype(&pcre2_match_data_free)> data{pcre2_match_data_create(1, nullptr), pcre2_match_data_free};
};
#endif

// The C library's own: the POSIX span. The locale stays C, so that it too reads bytes. A backslash between brackets stands for itself here, which makes some patterns another one, hardly
// slower or faster, and others none.
class Glibc : public Engine {
public:
    Glibc() : Engine("glibc, POSIX span") {}
    ~Glibc() override { drop(); }

    bool take(const std::string &pattern) override
    {
        drop();
        taken = regcomp(&expression, pattern.c_str(), REG_EXTENDED) == 0;
        return taken;
    }

    // A pattern ends for it at a zero byte, and the time for its start alone would say nothing.
    bool whole(const std::string &pattern) const override { return pattern.find('\0') == pattern.npos; }

    size_t pass(const Lines &lines) override
    {
        size_t sum = 0;
        for (const std::string &line : lines) {
            regmatch_t span;
            if (regexec(&expression, line.c_str(), 1, &span, 0) == 0)
                sum += static_cast<size_t>(span.rm_eo);
        }
        return sum;
    }

private:
    // An expression that regcomp refused must not be freed.
    void drop()
    {
        if (taken)
            regfree(&expression);
        taken = false;
    }

    regex_t expression;
    bool taken = false;
};

// The engines of this run, in their order within a round. `list` has all of them, ours first; the others are named where more than the time is asked of them.
struct Engines {
    std::vector<std::unique_ptr<Engine>> list;
    Ours *ours = nullptr, *old = nullptr;
    size_t place_of_old = 0;
#ifdef HAVE_RE2
    Re2 *re2 = nullptr;
#endif
#ifdef HAVE_PCRE2
    Pcre2 *pcre2 = nullptr;
#endif
};

// What one pattern gave: nanoseconds a byte of each engine (NAN if it did not take the whole pattern), and numbers of lines.
struct Row {
    std::string pattern;
    std::vector<double> times;
    size_t unlike_re2 = 0, unlike_old = 0, given_up = 0;
};

// Takes over the engine and hands back a plain pointer to it, for those that keep one.
template <typename E, typename... Words> E *add(Engines &all, Words... words)
{
    auto engine = std::make_unique<E>(words...);
    E *plain = engine.get();
    all.list.push_back(std::move(engine));
    return plain;
}

// The two builds stand side by side, so that a slow moment of the machine falls on both.
void fill(Engines &all, const char *new_file, const char *old_file)
{
    all.ours = add<Ours>(all, "this library", new_file);
    if (old_file) {
        all.place_of_old = all.list.size();
        all.old = add<Ours>(all, "its old build", old_file);
    }
#ifdef HAVE_RE2
    all.re2 = add<Re2>(all);
#endif
#ifdef HAVE_PCRE2
    all.pcre2 = add<Pcre2>(all);
#endif
    add<Glibc>(all);
}

// The clock that asks the kernel for nothing: some passes take less than a microsecond.
double now()
{
    return std::chrono::duration<double, std::nano>(std::chrono::steady_clock::now().time_since_epoch()).count();
}

volatile size_t sink;

// The best time of each engine. They take turns within a round, so that none has the machine's quiet moments to itself.
std::vector<double> best_times(const Engines &all, const Lines &lines)
{
    std::vector<double> best(all.list.size(), INFINITY);
    for (int round = 0; round < ROUNDS; round++)
        for (size_t i = 0; i < best.size(); i++) {
            if (round && best[i] > SLOW)
                continue;
            double start = now();
            sink = all.list[i]->pass(lines);
            best[i] = std::min(best[i], now() - start);
        }
    return best;
}

// A time says little if the answer is another one: the lines that are cut otherwise than by RE2 or by the old build.
void compare_spans(const Engines &all, const Lines &lines, Row &row)
{
    for (const std::string &line : lines) {
        Spans s = all.ours->spans(line);
#ifdef HAVE_RE2
        row.unlike_re2 += !same(s, all.re2->spans(line));
#endif
        if (all.old)
            row.unlike_old += !same(s, all.old->spans(line));
    }
}

// One pattern that every engine took.
Row measure(const Engines &all, const Lines &lines, const std::string &pattern)
{
    Row row;
    row.pattern = pattern;
    compare_spans(all, lines, row);
    row.times = best_times(all, lines);
    for (size_t i = 0; i < row.times.size(); i++)
        row.times[i] = all.list[i]->whole(pattern) ? row.times[i] / static_cast<double>(lines.size() * lines[0].size()) : NAN;
#ifdef HAVE_PCRE2
    row.given_up = all.pcre2->given_up;
#endif
    return row;
}

// Patterns have control bytes and bytes above 126, which a screen may take for orders.
std::string shown(const std::string &pattern)
{
    std::string out;
    for (unsigned char c : pattern) {
        char text[5];
        snprintf(text, sizeof text, c < 32 || c > 126 ? "\\x%02X" : "%c", c);
        out += text;
    }
    return out;
}

// The line of -v: the pattern last, since it has any length.
void print_row(const Row &row)
{
    for (double time : row.times)
        std::isnan(time) ? printf("%9s ", "-") : printf("%9.3f ", time);
    printf(" %s%s\n", row.unlike_re2 || row.unlike_old ? "(spans differ) " : "", shown(row.pattern).c_str());
}

// The names are longer than the columns.
void print_columns(const Engines &all)
{
    printf("  columns, nanoseconds a byte:");
    for (const auto &engine : all.list)
        printf(" %s;", engine->name.c_str());
    printf(" the pattern\n");
}

// Our time divided by the other's, pattern by pattern, in rising order, so that any part of them can be named.
std::vector<double> ratios(const std::vector<Row> &rows, size_t other)
{
    std::vector<double> all;
    for (const Row &row : rows)
        if (!std::isnan(row.times[other]))
            all.push_back(row.times[0] / row.times[other]);
    std::sort(all.begin(), all.end());
    return all;
}

// The mean that is 1 for a pattern twice as fast and one twice as slow.
double geometric_mean(const std::vector<double> &values)
{
    double sum = 0;
    for (double x : values)
        sum += std::log(x);
    return std::exp(sum / static_cast<double>(values.size()));
}

// The value that this part of them does not exceed.
double part(const std::vector<double> &sorted, double share)
{
    return sorted[static_cast<size_t>(share * static_cast<double>(sorted.size() - 1))];
}

// One line of the table: the mean hides what a user of a bad pattern meets, so the tail stands beside it.
void print_ratios(const std::string &name, const std::vector<double> &sorted)
{
    if (sorted.empty())
        return;
    auto faster = std::lower_bound(sorted.begin(), sorted.end(), 1.0) - sorted.begin();
    printf("  %-28s %8zu %9.2f %9.2f %9.2f %9.2f %9.0f%%\n", name.c_str(), sorted.size(), geometric_mean(sorted), part(sorted, 0.5), part(sorted, 0.9), part(sorted, 1),
           100.0 * static_cast<double>(faster) / static_cast<double>(sorted.size()));
}

// What a change of the library must answer for: its worst pattern by name, not its mean alone.
void print_old(const Engines &all, const std::vector<Row> &rows)
{
    size_t other = all.place_of_old, unlike = 0;
    const Row *worst = &rows[0];
    for (const Row &row : rows) {
        unlike += row.unlike_old;
        if (row.times[0] / row.times[other] > worst->times[0] / worst->times[other])
            worst = &row;
    }
    std::vector<double> sorted = ratios(rows, other);
    auto above = sorted.end() - std::upper_bound(sorted.begin(), sorted.end(), 2.0);
    printf("  the new build beside the old one: geometric mean %.3f, median %.3f, 90%% %.3f, worst %.2f\n", geometric_mean(sorted), part(sorted, 0.5), part(sorted, 0.9), part(sorted, 1));
    printf("  patterns above 2 times: %td; lines whose spans differ from the old build's: %zu\n", above, unlike);
    printf("  the worst pattern, %.3f beside %.3f nanoseconds a byte: %s\n", worst->times[0], worst->times[other], shown(worst->pattern).c_str());
}

// Before any time: what was measured, and whether the answers are the same.
void print_heading(const Lines &lines, const std::vector<Row> &rows, size_t patterns)
{
    size_t unlike = 0, given_up = 0;
    for (const Row &row : rows) {
        unlike += row.unlike_re2;
        given_up += row.given_up;
    }
    printf("  %zu of %zu patterns taken by every engine, on %zu lines each\n", rows.size(), patterns, lines.size());
#ifdef HAVE_RE2
    printf("  lines whose spans differ from RE2's: %zu\n", unlike);
#else
    (void)unlike;
    printf("  spans not compared, without RE2\n");
#endif
    if (given_up)
        printf("  lines on which PCRE2 gave up at one of its limits: %zu\n", given_up);
}

// All that is said of one line length, unless -v asks for more.
void print_summary(const Engines &all, const Lines &lines, const std::vector<Row> &rows, size_t patterns)
{
    print_heading(lines, rows, patterns);
    if (rows.empty())
        return;
    printf("  %-28s %8s %9s %9s %9s %9s %10s\n", "our time, both spans, beside", "patterns", "geo. mean", "median", "90%", "worst", "faster on");
    for (size_t i = 1; i < all.list.size(); i++)
        if (all.list[i].get() != all.old)
            print_ratios(all.list[i]->name, ratios(rows, i));
    if (all.old)
        print_old(all, rows);
}

// The text cut into lines of one length, from its start; fewer of them, and a word about it, if it is too short.
Lines cut_text(const std::string &text, size_t length)
{
    size_t wanted = BYTES / length + 1;
    Lines lines;
    for (size_t i = 0; i + length <= text.size() && lines.size() < wanted; i += length)
        lines.push_back(text.substr(i, length));
    if (lines.size() < wanted)
        printf("  there is text for %zu lines, not for %zu\n", lines.size(), wanted);
    return lines;
}

// One line length, all patterns. A pattern that one engine refuses is left out for all, so that the figures are of the same patterns.
void run(const Engines &all, const std::string &text, const Lines &patterns, size_t length, bool verbose)
{
    printf("\nlines of %zu bytes\n", length);
    Lines lines = cut_text(text, length);
    if (lines.empty())
        return;
    if (verbose)
        print_columns(all);
    std::vector<Row> rows;
    for (const std::string &pattern : patterns) {
        auto takes = [&](const std::unique_ptr<Engine> &engine) { return engine->take(pattern); };
        if (!std::all_of(all.list.begin(), all.list.end(), takes))
            continue;
        rows.push_back(measure(all, lines, pattern));
        if (verbose)
            print_row(rows.back());
    }
    print_summary(all, lines, rows, patterns.size());
}

// By bytes: neither the text nor the patterns need be UTF-8.
std::string content(const char *file)
{
    std::ifstream in(file, std::ios::binary);
    if (!in)
        throw std::runtime_error(std::string(file) + ": it cannot be read");
    return std::string(std::istreambuf_iterator<char>(in), {});
}

// Not by getline: an empty line is a pattern, too, and a last line without a newline is one.
Lines patterns_of(const std::string &all)
{
    Lines patterns;
    for (size_t i = 0, end; i < all.size(); i = end + 1) {
        end = std::min(all.find('\n', i), all.size());
        patterns.push_back(all.substr(i, end - i));
    }
    return patterns;
}

}  // namespace

int main(int argc, char **argv)
try {
    bool verbose = argc > 1 && std::string(argv[1]) == "-v";
    char **word = argv + 1 + verbose;
    int words = argc - 1 - verbose;
    if (words != 3 && words != 4)
        throw std::runtime_error("usage: engines [-v] TEXT PATTERNS NEW [OLD]");
    setvbuf(stdout, nullptr, _IOLBF, 0);
    Engines all;
    fill(all, word[2], words == 4 ? word[3] : nullptr);
    std::string text = content(word[0]);
    Lines patterns = patterns_of(content(word[1]));
    for (size_t length : LENGTHS)
        run(all, text, patterns, length, verbose);
    return 0;
} catch (const std::exception &e) {
    fprintf(stderr, "engines: %s\n", e.what());
    return 1;
}
