% track is a fact: gringo takes it out of the rules, and it is up in every position.
track(1..2).
{ clear(T) } :- track(T).
