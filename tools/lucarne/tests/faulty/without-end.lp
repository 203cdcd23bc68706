time(0).
time(T+1) :- time(T).
