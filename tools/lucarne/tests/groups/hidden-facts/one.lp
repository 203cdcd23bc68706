% Facts that do not show are in no list, and in that of the compiled plan neither.
track(1..2).
{ up(X) : track(X) }.
lamp(1).
#show up/1.
#show lamp/1.
