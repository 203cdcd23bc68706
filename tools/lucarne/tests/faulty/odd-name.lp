tür :- not zu.
