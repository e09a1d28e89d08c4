# long-document.awk: a drawn document of up to 400 jobs that can be cut after at most 20 jobs, with points and runs.
#
#   awk -v seed=1 -f long-document.awk > document.txt
#
# The generator is that of yds_cli trial, so a seed means the same in each awk. The runs of two thirds of the documents have faults: a run
# that is late, perhaps behind those of many jobs, early, without length, missing, out of order or at another speed. Some tables are too
# slow, one document in eight has no points, and one in ten only jobs of no work.

function draw(n) {
    state = (1664525 * state + 1013904223) % 4294967296
    return int(state / 65536) % n
}
function run(job, units, speed) {
    run_job[++runs] = job
    run_from[runs] = time * ticks
    run_to[runs] = (time + units) * ticks
    run_speed[runs] = speed
    work[job] += units * speed
    time += units
    end_of[job] = time
}
# Jobs that run one after the other, some in two pieces around the next one. Their windows end before the next stretch begins.
function add_stretch(    n, i, j, units, speed, waiting, waiting_speed, release, latest) {
    n = 1 + draw(longest)
    release = time
    for (i = 1; i <= n && jobs < most; i++) {
        j = ++jobs
        work[j] = 0
        if (draw(3)) release += draw(time - release + 1)
        end_of[j] = time
        units = 1 + draw(4)
        speed = 1 + draw(top)
        if (idle || draw(9) == 0) units = 0
        if (units) run(j, units, speed)
        if (waiting) run(waiting, 1, waiting_speed)
        waiting = 0
        if (units > 2 && i < n && draw(3) == 0) { waiting = j; waiting_speed = speed }
        from[j] = release
    }
    if (waiting) run(waiting, 1, waiting_speed)
    for (j = written + 1; j <= jobs; j++) {
        deadline = end_of[j] + draw(6)
        if (deadline <= from[j]) deadline = from[j] + 1
        if (deadline > latest) latest = deadline
        print "job j" j, from[j], deadline, work[j]
    }
    written = jobs
    time = latest + (draw(3) ? draw(40) : 0)
}
function move_back(r, places,    j, f, t, s) {
    for (; places > 0 && r < runs; places--) {
        j = run_job[r]; f = run_from[r]; t = run_to[r]; s = run_speed[r]
        run_job[r] = run_job[r + 1]; run_from[r] = run_from[r + 1]; run_to[r] = run_to[r + 1]; run_speed[r] = run_speed[r + 1]
        r++
        run_job[r] = j; run_from[r] = f; run_to[r] = t; run_speed[r] = s
    }
    return r
}
function spoil(    r, kind, length_) {
    r = 1 + draw(runs)
    kind = draw(7)
    length_ = run_to[r] - run_from[r]
    if (kind == 0) run_to[r] = run_from[r]
    else if (kind == 1) run_job[r] = 0
    else if (kind == 2) run_speed[r]++
    else if (kind == 3) run_from[r] -= draw(9) < run_from[r] ? draw(9) : 0
    else if (kind == 4) move_back(r, 1 + draw(40))
    else {
        r = move_back(r, draw(60))
        run_from[r] = r > 1 ? run_to[r - 1] - (kind == 5 && run_to[r - 1] > 1) : 0
        run_to[r] = run_from[r] + length_
    }
}
BEGIN {
    state = seed
    for (i = 0; i < 3; i++) draw(1)
    most = 1 + draw(400)
    top = 1 + draw(6)
    ticks = draw(2) ? 1 : 10
    idle = draw(10) == 0
    longest = draw(2) ? 20 : 4
    time = draw(1000)
    while (jobs < most) add_stretch()
    if (draw(8)) {
        print "point 0 " draw(3)
        fine = draw(2)
        s = power = 0
        for (fastest = draw(9) ? 7 : 3; s < fastest; ) {
            s += fine ? 1 : 1 + draw(2)
            power += s + draw(9)
            print "point " s, power
        }
    }
    if (!runs) exit
    for (spoiled = draw(3); spoiled > 0; spoiled--) spoil()
    print "ticks " ticks
    for (r = 1; r <= runs; r++) if (run_job[r]) print (draw(9) || ticks > 1 ? "run" : "slot"), "j" run_job[r], run_from[r], run_to[r], run_speed[r]
}
