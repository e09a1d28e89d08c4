# The least energy of jobs on operating points as a linear program, for GNU MathProg (glpsol -m least-energy.mod -d DATA).
# recipes/tests/least_energy.py of the repository writes the DATA of a document.
# x[j,s,p] is the time for which job j runs in stretch s at point p.
set J;
set S;
set P;
param name{J}, symbolic;
param release{J};
param deadline{J};
param work{J};
param begin{S};
param finish{S};
param speed{P};
param power{P};
set X := setof{j in J, s in S, p in P: release[j] <= begin[s] and finish[s] <= deadline[j]} (j, s, p);
var x{X} >= 0;
minimize energy: sum{(j, s, p) in X} power[p] * x[j, s, p];
subject to one_at_a_time{s in S}: sum{(j, s, p) in X} x[j, s, p] <= finish[s] - begin[s];
subject to all_of_it{j in J}: sum{(j, s, p) in X} speed[p] * x[j, s, p] = work[j];
solve;
printf{j in J} "job %s %d %d %d\n", name[j], release[j], deadline[j], work[j];
printf{(j, s, p) in X: x[j, s, p] > 0} "slot %s %.6f %.6f %.6f\n", name[j],
    begin[s] + sum{(k, s, q) in X: k < j or k = j and q < p} x[k, s, q],
    begin[s] + sum{(k, s, q) in X: k < j or k = j and q <= p} x[k, s, q], speed[p] * x[j, s, p];
end;
