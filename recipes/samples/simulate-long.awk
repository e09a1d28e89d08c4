# simulate-long.awk: a simulated kernel trace of many minutes of one CPU, and what its document should be.
#
#   awk -v seed=1 -v minutes=60 -v truth=truth.txt -f simulate-long.awk > trace.txt
#
# A decoder wakes up each 60 ms and an audio thread, which comes before it, each 90 ms: 100,000 jobs in an hour. At each wake-up the governor
# takes one of five frequencies. The generator is that of yds_cli trial, so a seed means the same in each awk. `truth` gets the `job` lines,
# for deadlines of 50 and 20 ms, and below them the time at each speed in units of 10 us and 10 MHz, from the simulator's own account.

function draw(n) {
    state = (1664525 * state + 1013904223) % 4294967296
    return int(state / 65536) % n
}
function head(t) {
    return sprintf("%16s-%-7d [000] %d.%09d: ", name[running], pid[running], 100 + int(t / 1000000000), t - 1000000000 * int(t / 1000000000))
}
function switch_to(who, state) {
    print head(now) "sched_switch: " name[running] ":" pid[running] " [120] " state " ==> " name[who] ":" pid[who] " [120]"
    running = who
}
function units(t) { return int((t - first) / 10000) }
# The running thread has run from `since` until now.
function account(    length_) {
    if (running) {
        left[running] -= (now - since) * khz
        length_ = units(now) - units(since)
        work[running] += int(khz / 10000 + 0.5) * length_
        time_at[khz] += length_
    }
    since = now
}
function best() { return ready[2] ? 2 : ready[1] ? 1 : 0 }
function wake(who) {
    account()
    print head(now) "sched_waking: comm=" name[who] " pid=" pid[who] " prio=120 target_cpu=000"
    if (first == "") first = now
    ready[who] = 1
    begin[who] = now
    work[who] = 0
    # In millionths of a cycle: at so many kilohertz, a nanosecond takes away just so many.
    left[who] = (who == 2 ? 800 + draw(800) : 8000 + draw(20000)) * 1000 * 1000000
    due = now
    now += 1000 * (1 + draw(4))
    account()
    khz = frequency[1 + draw(5)]
    print head(now) "cpu_frequency: state=" khz " cpu_id=0"
    if (best() != running) switch_to(best(), "R")
    next_wake[who] = due - due % 1000 + (who == 2 ? 90000000 : 60000000) + 1000 * (draw(3) - 1)
}
function sleep() {
    account()
    printf "job %s.%d %.0f %.0f %.0f\n", name[running], count[running]++, units(begin[running]),
        units(begin[running] + (running == 2 ? 20000000 : 50000000)), work[running] > truth
    ready[running] = 0
    switch_to(best(), "S")
}
BEGIN {
    state = seed
    if (truth == "") truth = "/dev/null"
    split("600000 816000 1008000 1200000 1416000", frequency, " ")
    name[0] = "<idle>"; name[1] = "decode"; name[2] = "audio"
    pid[0] = 0; pid[1] = 1201; pid[2] = 1202
    running = 0
    khz = 600000
    now = 500000000
    print head(now) "cpu_frequency: state=" khz " cpu_id=0"
    next_wake[1] = now + 1000000 * (1 + draw(5))
    next_wake[2] = now + 1000000 * (10 + draw(5))
    end = now + minutes * 60000000000
    while (1) {
        who = next_wake[1] < next_wake[2] ? 1 : 2
        done = since + int(left[running] / khz) + 1
        if (running && done <= next_wake[who] + 4000) {
            now = done
            sleep()
        } else {
            if (next_wake[who] > now) now = next_wake[who]
            if (now >= end) break
            wake(who)
        }
    }
    for (i = 1; i <= 5; i++) printf "time %d %.0f\n", int(frequency[i] / 10000 + 0.5), time_at[frequency[i]] > truth
}
