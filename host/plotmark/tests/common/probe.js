
(function () {
  "use strict";
  var said = [];
  function press(id) { document.getElementById(id).click(); }
  // What is lit, step by step.
  var count = document.querySelectorAll("#regions li").length;
  said.push("hidden " + document.getElementById("stepping").hidden);
  for (var step = 0; step !== count; step += 1) {
    press(step ? "next" : "first");
    var lit = Array.from(document.querySelectorAll(".layer .block.lit"));
    said.push("lit " + lit.map(function (it) { return it.id.slice(1); }).join(" "));
  }
  press("whole");
  said.push("whole " + document.querySelectorAll(".lit, .now, .later").length);
  // What lies over what.
  function box(it) { var b = it.getBBox(); return { l: b.x, t: b.y, r: b.x + b.width, b: b.y + b.height, it: it }; }
  function meet(a, b, by) { return a.r - by > b.l ? b.r - by > a.l ? a.b - by > b.t ? b.b - by > a.t : false : false : false; }
  // What belongs to one link, or to one block, may lie together.
  function apart(a, b) { return a.it.parentNode !== b.it.parentNode ? true : a.it.parentNode.classList.contains("block"); }
  function name(it) {
    var b = it.getBBox();
    var of = it.parentNode.querySelector("title");
    return it.tagName + "." + it.getAttribute("class") + " at " + Math.round(b.x) + "," + Math.round(b.y) + " [" + (of ? of.textContent.slice(0, 60) : "") + "]";
  }
  var found = [], measured = 0;
  document.querySelectorAll(".layer svg").forEach(function (svg) {
    var rects = Array.from(svg.querySelectorAll(".block rect")).map(box);
    var links = Array.from(svg.querySelectorAll(".arrow > *, .stub > *, .upright > *, .left-out > *"));
    links = links.filter(function (it) { return it.tagName !== "title"; }).map(box);
    var inside = Array.from(svg.querySelectorAll(".block text:not(.place), .block path.faces, .block .lamp")).map(box);
    var edges = Array.from(svg.querySelectorAll(".block circle:not(.lamp), .block .star")).map(box);
    var axes = Array.from(svg.querySelectorAll(".axis, .compass")).map(box);
    var all = links.concat(inside, edges, axes);
    measured += all.length;
    all.forEach(function (a, i) {
      all.slice(i + 1).forEach(function (b) { if (apart(a, b) ? meet(a, b, 0.6) : false) { found.push(name(a.it) + " over " + name(b.it)); } });
    });
    links.concat(axes).forEach(function (a) {
      var by = a.it.parentNode.classList.contains("left-out") ? 8 : 1;
      rects.forEach(function (r) { if (meet(a, r, by)) { found.push(name(a.it) + " over " + name(r.it.parentNode)); } });
    });
    inside.forEach(function (a) {
      var r = box(a.it.parentNode.querySelector("rect"));
      if (r.l > a.l || a.r > r.r || r.t > a.t || a.b > r.b) { found.push(name(a.it) + " out of " + name(r.it.parentNode)); }
    });
    rects.forEach(function (a, i) {
      rects.slice(i + 1).forEach(function (b) { if (meet(a, b, 0)) { found.push("blocks overlap"); } });
    });
  });
  said.push("measured " + measured);
  said.push("overlaps " + found.length);
  found.slice(0, 12).forEach(function (it) { said.push("overlap " + it.replace(/\s+/g, " ")); });
  said.push("wide " + (document.documentElement.scrollWidth > window.innerWidth));
  var out = document.createElement("pre");
  out.id = "said";
  out.textContent = said.join("\n");
  document.body.appendChild(out);
}());
