// The page begins.
window.addEventListener('hashchange', draw);
window.addEventListener('load', () => setTimeout(lead));
form.hidden = view.hidden = by('copy').hidden = relays.length === 0;
draw();
