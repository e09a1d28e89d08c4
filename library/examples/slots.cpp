// slots.cpp: jobs in, slots out. Three jobs are planned, also on operating points. A schedule of one's own is judged.
//
//   c++ -std=c++17 -o slots slots.cpp -lyds
#include <iostream>
#include <vector>
#include <yds.hpp>

int main() {
	std::vector<yds::Job> jobs{{"a", 0, 12, 4}, {"b", 2, 10, 8}, {"c", 4, 6, 6}};
	const std::vector<yds::Point> points{{0, 1}, {1, 2}, {2, 5}, {4, 17}};

	std::cout << "plan:\n";
	for (const yds::Slot &slot : yds::plan(jobs))
		std::cout << "  " << slot.job << " from " << slot.start << " to " << slot.end << ", work " << slot.work << '\n';

	for (const std::uint64_t work : {6, 9}) {
		jobs[2].work = work;
		const std::optional<yds::Rounded> rounded = yds::round(jobs, points);
		std::cout << "c needs " << work << ": " << (rounded ? "energy " + to_string(rounded->energy) : "the top point is too slow") << '\n';
	}

	const yds::Run run = yds::optimal_available(jobs);
	std::cout << "Optimal Available: " << run.slots.size() << " slots, rounded " << run.rounded << '\n';

	std::cout << "judged: " << yds::audit({{"a", 0, 2, 3}}, {{"a", {0}, {1, 1, 7}, {1}}, {"a", {1, 1, 7}, {2, 1, 7}, {2}}}).text << '\n';
	try {
		yds::plan({{"a", 0, 4, 8}, {"b", 4, 4, 1}});
	} catch (const yds::Refused &fault) {
		std::cout << fault.what() << '\n';
	}
}
