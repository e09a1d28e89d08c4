// textbook: the plan of Yao, Demers and Shenker (FOCS 1995) as they tell it, to measure `yds_cli plan` against.
//
//   textbook < DOCUMENT
//
// Reads a document's job lines, passes over all others, and writes what `yds_cli plan` writes for them, byte for byte. As long as jobs
// wait, it looks for the interval of the greatest intensity in the time that is left, with a sweep over the deadlines from each
// release; serves the jobs whose windows lie in it there, earliest deadline first; and takes it out of time. It believes its input,
// and nothing of it is proved.

#include <algorithm>
#include <cstdint>
#include <cstdio>
#include <iostream>
#include <iterator>
#include <numeric>
#include <queue>
#include <sstream>
#include <string>
#include <vector>

using Number = std::uint64_t;
using Wide = unsigned __int128;

struct Job {
	std::string name;
	Number release, deadline, work;
	std::size_t first, end;  // its window, as a range of stretches
};

struct Interval {
	Number from, to, work;  // in the time that is left
};

struct Level {
	Number work = 0, length = 0;
	std::vector<std::size_t> stretches, members;
};

struct Share {
	std::size_t job;
	Number units;
};

struct Plan {
	std::vector<Number> events;
	std::vector<Level> levels;                // no two of one speed, the fastest first
	std::vector<std::vector<Share>> shares;   // of each stretch, in order
	std::vector<std::size_t> level_of;        // of each stretch
};

static std::vector<Job> read_jobs(std::istream &input) {
	std::vector<Job> jobs;
	for (std::string line; std::getline(input, line);) {
		std::istringstream fields(line);
		std::string kind;
		Job job{};
		if (fields >> kind && kind == "job" && fields >> job.name >> job.release >> job.deadline >> job.work)
			jobs.push_back(job);
	}
	return jobs;
}

static std::vector<Number> event_points(std::vector<Job> &jobs) {
	std::vector<Number> events;
	for (const Job &job : jobs) {
		events.push_back(job.release);
		events.push_back(job.deadline);
	}
	std::sort(events.begin(), events.end());
	events.erase(std::unique(events.begin(), events.end()), events.end());
	auto place = [&](Number time) { return std::size_t(std::lower_bound(events.begin(), events.end(), time) - events.begin()); };
	for (Job &job : jobs) {
		job.first = place(job.release);
		job.end = place(job.deadline);
	}
	return events;
}

// The interval of the greatest intensity: of those the one that begins first, and of these the one that ends last.
// `waiting` is in order of deadline, and `place` tells where an event is in the time that is left.
static Interval critical(const std::vector<Job> &jobs, const std::vector<std::size_t> &waiting, const std::vector<Number> &place) {
	std::vector<Number> starts;
	for (std::size_t job : waiting)
		starts.push_back(place[jobs[job].first]);
	std::sort(starts.begin(), starts.end());
	starts.erase(std::unique(starts.begin(), starts.end()), starts.end());
	Interval best{0, 1, 0};
	for (Number start : starts) {
		Number work = 0;
		for (std::size_t job : waiting) {
			if (place[jobs[job].first] < start)
				continue;
			work += jobs[job].work;
			Number end = place[jobs[job].end];
			Wide one = Wide(work) * (best.to - best.from), other = Wide(best.work) * (end - start);
			if (one > other || (one == other && start == best.from && end >= best.to))
				best = {start, end, work};
		}
	}
	return best;
}

// Serves the members in the stretches, earliest deadline first. A time unit has room for `room` units, a unit of work wants `want`.
static void serve(const std::vector<Job> &jobs, const std::vector<std::size_t> &members, const std::vector<std::size_t> &stretches, Number room, Number want, Plan &plan) {
	std::vector<std::size_t> arriving = members;
	std::sort(arriving.begin(), arriving.end(), [&](std::size_t a, std::size_t b) { return jobs[a].first < jobs[b].first; });
	using Entry = std::pair<std::pair<std::size_t, std::size_t>, Number>;
	std::priority_queue<Entry, std::vector<Entry>, std::greater<Entry>> pending;
	std::size_t next = 0;
	for (std::size_t stretch : stretches) {
		for (; next < arriving.size() && jobs[arriving[next]].first <= stretch; next++)
			pending.push({{jobs[arriving[next]].end, arriving[next]}, want * jobs[arriving[next]].work});
		Number left = room * (plan.events[stretch + 1] - plan.events[stretch]);
		while (left > 0 && !pending.empty()) {
			Entry entry = pending.top();
			Number units = std::min(left, entry.second);
			pending.pop();
			plan.shares[stretch].push_back({entry.first.second, units});
			left -= units;
			if (units < entry.second)
				pending.push({entry.first, entry.second - units});
		}
	}
}

static Plan make_plan(std::vector<Job> &jobs) {
	Plan plan;
	plan.events = event_points(jobs);
	std::size_t count = plan.events.empty() ? 0 : plan.events.size() - 1;
	const std::size_t none = SIZE_MAX;
	plan.shares.resize(count);
	plan.level_of.assign(count, none);
	std::vector<std::size_t> waiting;
	for (std::size_t job = 0; job < jobs.size(); job++)
		if (jobs[job].work > 0)
			waiting.push_back(job);
	std::stable_sort(waiting.begin(), waiting.end(), [&](std::size_t a, std::size_t b) { return jobs[a].deadline < jobs[b].deadline; });
	while (!waiting.empty()) {
		std::vector<Number> place(count + 1, 0);
		for (std::size_t k = 0; k < count; k++)
			place[k + 1] = place[k] + (plan.level_of[k] == none ? plan.events[k + 1] - plan.events[k] : 0);
		Interval found = critical(jobs, waiting, place);
		Number length = found.to - found.from, divisor = std::gcd(found.work, length);
		if (plan.levels.empty() || Wide(plan.levels.back().work) * length != Wide(found.work) * plan.levels.back().length)
			plan.levels.emplace_back();
		Level &level = plan.levels.back();
		level.work += found.work;
		level.length += length;
		std::vector<std::size_t> members, others, stretches;
		for (std::size_t job : waiting)
			(place[jobs[job].first] >= found.from && place[jobs[job].end] <= found.to ? members : others).push_back(job);
		for (std::size_t k = 0; k < count; k++)
			if (plan.level_of[k] == none && place[k] >= found.from && place[k + 1] <= found.to) {
				plan.level_of[k] = plan.levels.size() - 1;
				stretches.push_back(k);
			}
		serve(jobs, members, stretches, found.work / divisor, length / divisor, plan);
		level.members.insert(level.members.end(), members.begin(), members.end());
		level.stretches.insert(level.stretches.end(), stretches.begin(), stretches.end());
		waiting = others;
	}
	for (Level &level : plan.levels) {
		std::sort(level.members.begin(), level.members.end());
		std::sort(level.stretches.begin(), level.stretches.end());
	}
	return plan;
}

static std::string fraction(Number whole, Number parts, Number denominator) {
	whole += parts / denominator;
	parts %= denominator;
	return parts == 0 ? std::to_string(whole) : std::to_string(whole) + "+" + std::to_string(parts) + "/" + std::to_string(denominator);
}

static void print(const std::vector<Job> &jobs, const Plan &plan) {
	std::string text;
	auto line = [&](std::initializer_list<std::string> fields) {
		for (const std::string &field : fields)
			(text += field) += ' ';
		text.back() = '\n';
	};
	for (const Job &job : jobs)
		line({"job", job.name, std::to_string(job.release), std::to_string(job.deadline), std::to_string(job.work)});
	for (std::size_t k = 0; k < plan.shares.size(); k++) {
		if (plan.shares[k].empty())
			continue;
		const Level &level = plan.levels[plan.level_of[k]];
		Number divisor = std::gcd(level.work, level.length), room = level.work / divisor, want = level.length / divisor, done = 0;
		for (const Share &share : plan.shares[k]) {
			line({"slot", jobs[share.job].name, fraction(plan.events[k], done, room), fraction(plan.events[k], done + share.units, room), fraction(0, share.units, want)});
			done += share.units;
		}
	}
	for (const Level &level : plan.levels) {
		line({"level", std::to_string(level.work), std::to_string(level.length)});
		for (std::size_t i = 0; i < level.stretches.size();) {
			std::size_t from = level.stretches[i], to = from;
			for (; i < level.stretches.size() && level.stretches[i] == to; i++)
				to++;
			line({"piece", std::to_string(plan.events[from]), std::to_string(plan.events[to])});
		}
		for (std::size_t member : level.members)
			line({"member", jobs[member].name});
	}
	std::fwrite(text.data(), 1, text.size(), stdout);
}

int main() {
	std::ios::sync_with_stdio(false);
	std::vector<Job> jobs = read_jobs(std::cin);
	print(jobs, make_plan(jobs));
	return 0;
}
