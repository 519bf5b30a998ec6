// A click on a state, or Enter or the space bar there, leaves only its own arrows plain; the same once more, a click
// beside it or Escape shows all again.
document.querySelectorAll("svg.diagram").forEach(function (svg) {
  function pick(box) {
    var again = box === null || (svg.dataset.picked === box.dataset.state);
    svg.dataset.picked = again ? "" : box.dataset.state;
    svg.classList.toggle("picked", again === false);
    var near = [svg.dataset.picked];
    svg.querySelectorAll(".edge").forEach(function (edge) {
      var own = edge.dataset.from === svg.dataset.picked;
      edge.classList.toggle("on", own);
      if (own) { near.push(edge.dataset.to); }
    });
    svg.querySelectorAll(".state").forEach(function (state) {
      state.classList.toggle("on", near.indexOf(state.dataset.state) !== -1);
      state.setAttribute("aria-pressed", state.dataset.state === svg.dataset.picked);
    });
  }
  svg.addEventListener("click", function (event) { pick(event.target.closest(".state")); });
  svg.addEventListener("keydown", function (event) {
    if (["Enter", " "].indexOf(event.key) === -1) { return; }
    event.preventDefault();
    pick(event.target.closest(".state"));
  });
  document.addEventListener("keydown", function (event) {
    if (event.key === "Escape") { pick(null); }
  });
});
