// rows.cpp: whether yds.hpp spells rows and reads answers. The numbers were worked by hand. The last line is 'N passed, M failed', and the exit
// status is 1 where M isn't 0.
#include "yds.hpp"
#include <iostream>

static unsigned passed, failed;

static void judge(const char *name, bool holds) {
	if (holds) {
		passed++;
		return;
	}
	failed++;
	std::cout << "FAILED: " << name << '\n';
}

// Whether the call throws this exception, with these words in it.
template <class Fault, class Call> static bool throws(Call call, const std::string &words) {
	try {
		call();
	} catch (const Fault &fault) {
		return std::string(fault.what()).find(words) != std::string::npos;
	}
	return false;
}

static std::string told(const std::vector<yds::Slot> &slots) {
	std::string text;
	for (const yds::Slot &slot : slots)
		text += slot.job + ' ' + to_string(slot.start) + ' ' + to_string(slot.end) + ' ' + to_string(slot.work) + ';';
	return text;
}

int main() {
	const std::vector<yds::Job> three{{"a", 0, 12, 4}, {"b", 2, 10, 8}, {"c", 4, 6, 6}};
	const std::vector<yds::Slot> plan = yds::plan(three);
	judge("the plan's slots", told(plan) == "a 0 2 2;b 2 4 2+2/3;c 4 6 6;b 6 10 5+1/3;a 10 12 2;");
	judge("a fraction as a float", double(yds::Fraction{2, 3, 4}) == 2.75 && plan[2].speed() == 3.0);
	judge("its audit", yds::audit(three, plan) && yds::audit(three, plan).text == "feasible");
	judge("no jobs", yds::plan({}).empty() && yds::audit({}, {}));

	const yds::Verdict late = yds::audit({{"a", 0, 4, 2}}, {{"a", {3}, {5}, {2}}});
	judge("a late slot", !late && late.text == "late slot 1 a 5 deadline 4");
	const std::optional<yds::Rounded> rounded = yds::round({{"a", 0, 4, 6}}, {{0, 0}, {1, 1}, {2, 3}});
	judge("rounded to points", rounded && to_string(rounded->energy) == "8" && told(rounded->slots) == "a 0 2 4;a 2 4 2;");
	judge("too slow a top point", !yds::round({{"a", 0, 2, 5}}, {{0, 1}, {2, 9}}));

	const std::vector<yds::Job> arrivals{{"a", 0, 3, 2}, {"b", 1, 2, 1}};
	const yds::Run coarse = yds::optimal_available(arrivals, 1), fine = yds::optimal_available(arrivals);
	judge("a coarse grid", coarse.grid == 1 && coarse.rounded == 1 && told(coarse.slots) == "a 0 1 1;b 1 2 1;a 2 3 1;");
	judge("the fine grid", fine.grid == 720720 && fine.rounded == 0 && fine.slots.size() == 4);
	judge("Average Rate", yds::average_rate({{"a", 0, 4, 4}, {"b", 2, 4, 2}}, 1).rounded == 0 && told(yds::average_rate({{"a", 0, 4, 4}, {"b", 2, 4, 2}}, 1).slots) == "a 0 2 2;a 2 3 2;b 3 4 2;");

	judge("a refusal", throws<yds::Refused>([] { yds::plan({{"a", 0, 4, 8}, {"b", 4, 4, 1}}); }, "refused 2 9 EmptyWindow"));
	try {
		yds::round({{"a", 0, 4, 8}}, {});
		judge("points are wanted", false);
	} catch (const yds::Refused &fault) {
		judge("points are wanted", fault.reason() == "no-table" && fault.text() == "refused no-table");
	}
	for (const char *name : {"", "two words", "job\n", "\xc3\xa4"})
		judge("no name", throws<std::invalid_argument>([name] { yds::plan({{name, 0, 4, 8}}); }, "is no name"));
	judge("a long name", throws<std::invalid_argument>([] { yds::audit({}, {{std::string(65, 'a'), {0}, {1}, {1}}}); }, "is no name"));
	judge("a name of 64", yds::plan({{std::string(64, '~'), 0, 4, 8}}).size() == 1);
	judge("a grid out of its range", throws<std::invalid_argument>([&] { yds::average_rate(arrivals, 0); }, "out of its range; usage:"));
	judge("a word that isn't UTF-8", throws<std::invalid_argument>([] { yds::answer({"\xff"}); }, "isn't UTF-8"));
	judge("no words", yds::answer({}).status == YDS_USAGE && yds::answer({}, "job a 0 4 8\n").text.substr(0, 6) == "usage:");

	std::vector<yds::Job> many;
	for (std::uint64_t place = 0; place < 4000; place++)
		many.push_back({"j" + std::to_string(place), place, place + 1 + place % 700, place % 911});
	const yds::Run run = yds::optimal_available(many, 1000);
	judge("4,000 jobs, in a second room", yds::audit(many, run.slots) && yds::audit(many, yds::plan(many)));
	judge("the version", yds::version() == YDS_VERSION);

	std::cout << passed << " passed, " << failed << " failed\n";
	return failed > 0;
}
