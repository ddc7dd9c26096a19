
(function () {
  "use strict";
  var steps = Array.from(document.querySelectorAll("#regions li"));
  var blocks = Array.from(document.querySelectorAll(".layer .block"));
  var at = -1;
  function show(step) {
    at = Math.max(-1, Math.min(step, steps.length - 1));
    document.body.classList.toggle("stepping", at !== -1);
    blocks.forEach(function (block) {
      var region = Number(block.dataset.region);
      block.classList.toggle("lit", at >= region ? block.dataset.lights === "1" : false);
      block.classList.toggle("now", region === at);
    });
    steps.forEach(function (region, number) {
      region.classList.toggle("now", number === at);
      region.classList.toggle("later", at === -1 ? false : number > at);
    });
    var now = steps[at];
    document.getElementById("step").textContent = now ? "step " + (at + 1) + " of " + steps.length + ": " + now.textContent : "";
    if (now) { now.scrollIntoView({ block: "nearest", inline: "nearest" }); }
  }
  function on(id, step) {
    document.getElementById(id).addEventListener("click", function () { show(step()); });
  }
  on("first", function () { return 0; });
  on("back", function () { return Math.max(0, at - 1); });
  on("next", function () { return at + 1; });
  on("whole", function () { return -1; });
  if (steps.length) { document.getElementById("stepping").hidden = false; }
}());
