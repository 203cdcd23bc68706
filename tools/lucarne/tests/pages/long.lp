% Long names and many relays, so that the page is wider than the screen.
%name x01 "Signal 31 home, route to the down goods loop, entrance button repeat relay"
%name x02 "Вайбергасса 7 TPR"
{ x01; x02; a_relay_whose_designer_had_a_very_long_breath_and_wrote_it_all_into_its_name }.
x03 :- x01. x04 :- x02. x05 :- x03. x06 :- x04. x07 :- x05. x08 :- x06. x09 :- x07. x10 :- x08. x11 :- x09. x12 :- x10. x13 :- x11. x14 :- x12.
x15 :- x13. x16 :- x14. x17 :- x15. x18 :- x16. x19 :- x17. x20 :- x18. x21 :- x19. x22 :- x20. x23 :- x21. x24 :- x22. x25 :- x23. x26 :- x24.
x27 :- x25. x28 :- x26. x29 :- x27. x30 :- x28. x31 :- x29. x32 :- x30. x33 :- x31. x34 :- x32. x35 :- x33. x36 :- x34. x37 :- x35. x38 :- x36.
x39 :- x37. x40 :- x38. x41 :- x39. x42 :- x40. x43 :- x41. x44 :- x42. x45 :- x43. x46 :- x44. x47 :- x45. x48 :- x46. x49 :- x47. x50 :- x48.
