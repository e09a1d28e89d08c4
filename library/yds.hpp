// yds.hpp: the library yds for C++17. Jobs in, slots out, over the one call of yds.h.
//
//     const std::vector<yds::Job> jobs{{"a", 0, 12, 4}, {"b", 2, 10, 8}, {"c", 4, 6, 6}};
//     for (const yds::Slot &slot : yds::plan(jobs))
//         std::cout << slot.job << ' ' << slot.start << ' ' << slot.end << ' ' << slot.speed() << '\n';
//
// Times, works and speeds are in units of your choice, with work = speed * time. Numbers are exact: a float is only what
// you make of them. A no is a value: no Rounded, or a Verdict that is false. A fault is thrown: yds::Refused where the
// rows have one, std::invalid_argument where a name or a number can be none, std::bad_alloc for lack of memory.
// Nothing is kept between calls but two numbers, and any number of threads may call at once.
//
// What is proved is the call under this header. The header spells rows and reads answers, and is only tested.
#ifndef YDS_HPP
#define YDS_HPP

#include <algorithm>
#include <charconv>
#include <cstddef>
#include <cstdint>
#include <new>
#include <optional>
#include <ostream>
#include <random>
#include <stdexcept>
#include <string>
#include <string_view>
#include <system_error>
#include <utility>
#include <vector>

#include "yds.h"

namespace yds {

// A job may run from its release to its deadline (units of time), and its work is to be done by then (units of work).
struct Job {
	std::string name; // 1 to 64 visible ASCII characters, without a space
	std::uint64_t release = 0, deadline = 0, work = 0;
};

// An operating point: a speed (work per unit of time), and the power there (energy per unit of time).
struct Point {
	std::uint64_t speed = 0, power = 0;
};

// The number whole + numerator / denominator, exactly; numerator < denominator.
struct Fraction {
	std::uint64_t whole = 0, numerator = 0, denominator = 1;

	explicit operator double() const { return double(whole) + double(numerator) / double(denominator); }
};

// As documents spell it: 2+2/3.
inline std::string to_string(const Fraction &value) {
	std::string text = std::to_string(value.whole);
	if (value.denominator != 1)
		text += '+' + std::to_string(value.numerator) + '/' + std::to_string(value.denominator);
	return text;
}

inline std::ostream &operator<<(std::ostream &out, const Fraction &value) { return out << to_string(value); }

// The job runs from start to end (units of time), and gets so much work. Both ends have one denominator or are whole,
// and so have all works of one job.
struct Slot {
	std::string job;
	Fraction start, end, work;

	// Work per unit of time, as a float.
	double speed() const { return double(work) / (double(end) - double(start)); }
};

// The run of an online policy. Works are counted in parts of 1/grid, and at so many event points it was rounded up to
// them: at 0 the run is the policy itself.
struct Run {
	std::vector<Slot> slots;
	std::uint64_t grid = 1, rounded = 0;
};

// A plan at the operating points, and its energy: the least on these points.
struct Rounded {
	std::vector<Slot> slots;
	Fraction energy;
};

// Whether slots give each job its work in its window, one job at a time. The text says what is wrong with which slot.
struct Verdict {
	bool feasible = false;
	std::string text;

	explicit operator bool() const { return feasible; }
};

// The rows have a fault. They are spelled as a document, a line for each row: jobs, then points, then slots.
class Refused : public std::runtime_error {
public:
	explicit Refused(const std::string &text) : std::runtime_error(text) {}

	// The line "refused LINE COLUMN REASON", or "refused too-long" or "refused no-table".
	std::string text() const { return what(); }

	// One word, as docs/format.md has them.
	std::string reason() const { return text().substr(text().rfind(' ') + 1); }
};

// The status and the text of an answer.
struct Answer {
	yds_status status;
	std::string text;
};

// So many parts of a unit of work do the policies count in where nothing is said: it has all divisors up to 16.
inline constexpr std::uint64_t fine_grid = 720720;

namespace detail {

// The keys for the tables of names, drawn once for each process.
struct Keys {
	std::uint64_t first, second;
	Keys() {
		std::random_device device;
		first = std::uint64_t(device()) << 32 | device();
		second = std::uint64_t(device()) << 32 | device();
	}
};

// The fields of a line of an answer.
inline std::vector<std::string_view> fields_of(std::string_view line) {
	std::vector<std::string_view> fields;
	while (!line.empty()) {
		const std::size_t end = std::min(line.find(' '), line.size());
		fields.push_back(line.substr(0, end));
		line.remove_prefix(std::min(end + 1, line.size()));
	}
	return fields;
}

inline std::uint64_t number(std::string_view field) {
	std::uint64_t value = 0;
	const auto [end, fault] = std::from_chars(field.data(), field.data() + field.size(), value);
	if (fault != std::errc() || end != field.data() + field.size())
		throw std::logic_error("yds: an answer has the field '" + std::string(field) + "' where a number stands");
	return value;
}

inline Fraction fraction(std::string_view field) {
	const std::size_t plus = field.find('+'), over = field.find('/');
	if (plus == field.npos || over == field.npos)
		return {number(field)};
	return {number(field.substr(0, plus)), number(field.substr(plus + 1, over - plus - 1)), number(field.substr(over + 1))};
}

// What the lines of an answer tell, beside its jobs and points.
struct Told {
	std::vector<Slot> slots;
	std::uint64_t grid = 1, rounded = 0;
	Fraction energy;

	explicit Told(std::string_view text) {
		while (!text.empty()) {
			const std::size_t end = std::min(text.find('\n'), text.size());
			add(fields_of(text.substr(0, end)));
			text.remove_prefix(std::min(end + 1, text.size()));
		}
	}

private:
	void add(const std::vector<std::string_view> &fields) {
		if (fields.empty())
			return;
		if (fields[0] == "slot" && fields.size() == 5)
			slots.push_back({std::string(fields[1]), fraction(fields[2]), fraction(fields[3]), fraction(fields[4])});
		else if (fields[0] == "grid" && fields.size() == 3)
			grid = number(fields[1]), rounded = number(fields[2]);
		else if (fields[0] == "energy" && fields.size() == 2)
			energy = fraction(fields[1]);
	}
};

// A name with a space or a line feed in it would be more than one field of the document.
inline void check_name(const std::string &name) {
	bool visible = !name.empty() && name.size() <= 64;
	for (const char byte : name)
		visible = visible && byte > ' ' && byte <= '~';
	if (!visible)
		throw std::invalid_argument("yds: '" + name + "' is no name: one has 1 to 64 visible ASCII characters");
}

} // namespace detail

// The text of a document with these rows.
inline std::string spelled(const std::vector<Job> &jobs, const std::vector<Point> &points = {}, const std::vector<Slot> &slots = {}) {
	using std::to_string;
	std::string text;
	for (const Job &job : jobs) {
		detail::check_name(job.name);
		text += "job " + job.name + ' ' + to_string(job.release) + ' ' + to_string(job.deadline) + ' ' + to_string(job.work) + '\n';
	}
	for (const Point &point : points)
		text += "point " + to_string(point.speed) + ' ' + to_string(point.power) + '\n';
	for (const Slot &slot : slots) {
		detail::check_name(slot.job);
		text += "slot " + slot.job + ' ' + to_string(slot.start) + ' ' + to_string(slot.end) + ' ' + to_string(slot.work) + '\n';
	}
	return text;
}

// The answer to the words of a command line from an input, as the program gives it. A refusal and a usage line are
// answers, too. Throws std::invalid_argument where a word isn't UTF-8, and std::bad_alloc.
inline Answer answer(const std::vector<std::string_view> &words, std::string_view input = {}) {
	static const detail::Keys keys;
	std::vector<yds_word> given;
	for (const std::string_view word : words)
		given.push_back({word.data(), word.size()});
	std::string text(4096 + 16 * input.size(), '\0'); // enough for most
	for (;;) {
		std::size_t needed = 0;
		const auto status = yds_status(yds_answer(given.data(), given.size(), input.data(), input.size(), keys.first, keys.second,
		                                          text.data(), text.size(), &needed));
		if (status == YDS_MEMORY)
			throw std::bad_alloc();
		if (status == YDS_WORDS)
			throw std::invalid_argument("yds: a word isn't UTF-8");
		const bool fits = needed <= text.size();
		text.resize(needed);
		if (fits)
			return {status, text};
	}
}

// As answer, but a refusal is thrown as Refused, and words that name no command as std::invalid_argument.
inline Answer yes_or_no(const std::vector<std::string_view> &words, std::string_view input) {
	Answer answered = answer(words, input);
	while (!answered.text.empty() && answered.status != YDS_DONE && answered.text.back() == '\n')
		answered.text.pop_back();
	if (answered.status == YDS_REFUSED)
		throw Refused(answered.text);
	if (answered.status == YDS_USAGE)
		throw std::invalid_argument("yds: a number is out of its range; " + answered.text);
	return answered;
}

// The slots that do the least work above every speed: the least energy by every convex power.
inline std::vector<Slot> plan(const std::vector<Job> &jobs) {
	return detail::Told(yes_or_no({"plan"}, spelled(jobs)).text).slots;
}

// The plan at the points. Nothing where no schedule stays at or below the top point.
inline std::optional<Rounded> round(const std::vector<Job> &jobs, const std::vector<Point> &points) {
	const Answer answered = yes_or_no({"round"}, spelled(jobs, points));
	if (answered.status == YDS_NO)
		return std::nullopt;
	detail::Told told(answered.text);
	return Rounded{std::move(told.slots), told.energy};
}

// The run of the online policy Average Rate, on works of 1/grid (1 to 1,000,000).
inline Run average_rate(const std::vector<Job> &jobs, std::uint64_t grid = fine_grid) {
	detail::Told told(yes_or_no({"avr", "--grid", std::to_string(grid)}, spelled(jobs)).text);
	return {std::move(told.slots), told.grid, told.rounded};
}

// The run of the online policy Optimal Available, on works of 1/grid (1 to 1,000,000).
inline Run optimal_available(const std::vector<Job> &jobs, std::uint64_t grid = fine_grid) {
	detail::Told told(yes_or_no({"oa", "--grid", std::to_string(grid)}, spelled(jobs)).text);
	return {std::move(told.slots), told.grid, told.rounded};
}

// Whether the slots give each job its work in its window, one job at a time. They stand in the order of their times.
inline Verdict audit(const std::vector<Job> &jobs, const std::vector<Slot> &slots) {
	const Answer answered = yes_or_no({"audit"}, spelled(jobs, {}, slots));
	return {answered.status == YDS_DONE, answered.status == YDS_DONE ? "feasible" : answered.text};
}

// The version of the library with which the program runs.
inline std::string_view version() { return yds_version(); }

} // namespace yds

#endif
