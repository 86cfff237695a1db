// Draws a run on two canvases, of which only what is seen is drawn, and tells in words what is chosen.
"use strict";
(() => {
  const data = JSON.parse(document.getElementById("data").textContent);
  const lines = data.report.split("\n");
  lines.pop();
  const count = lines.length;
  const one = (id) => document.getElementById(id);
  const root = document.documentElement;
  const shapes = {};
  for (const [name, [path, filled]] of Object.entries(data.shapes)) shapes[name] = { path: new Path2D(path), filled };

  // ---- what the lines say

  const kind = data.looks.map((look) => data.kinds[look]);
  const step = new Float64Array(count);
  const site = new Int32Array(count);
  const boot = new Int32Array(count);
  const starts = [];
  for (let i = 0; i < count; i++) {
    const words = lines[i].split(" ", 3);
    step[i] = Number(words[0]);
    if (words[1] === "boot") starts.push(i);
    else if (!["begin", "commit", "trap", "end"].includes(words[1])) site[i] = Number(words[2]);
    boot[i] = starts.length;
  }
  const isAgain = (i) => kind[i] === "again";

  function sentence(i) {
    const [key, ...values] = data.notes[i];
    return data.sentences[key].replace(/\{(\d)\}/g, (_, place) => values[place]);
  }

  // ---- lanes: for each task that ran one for its attempts, and one for each of its sites that shows

  const siteOf = new Map(data.sites.map((s) => [s[0] + "." + s[1], s]));
  const seen = new Set();
  for (let i = 0; i < count; i++) if (data.of[i] && kind[i] !== "boot" && kind[i] !== "end") seen.add(data.of[i] + "." + site[i]);
  const lanes = [];
  const laneOf = new Map();
  data.tasks.forEach((name, at) => {
    if (!seen.has(at + 1 + ".0")) return;
    laneOf.set(at + 1 + ".0", lanes.length);
    lanes.push({ task: name });
    for (const s of data.sites.filter((s) => s[0] === at + 1 && seen.has(s[0] + "." + s[1]))) {
      laneOf.set(s[0] + "." + s[1], lanes.length);
      lanes.push({ site: s });
    }
  });
  const lane = Int32Array.from({ length: count }, (_, i) => laneOf.get(data.of[i] + "." + site[i]) ?? 0);
  const hasLane = (i) => kind[i] !== "boot" && kind[i] !== "end";

  // attempts as bars: from the line of the begin to that of the commit, or where the power failed
  const attempts = [];
  for (let i = 0; i < count; i++) {
    if (kind[i] === "begin") attempts.push({ from: i, to: i, lane: lane[i], how: "cut" });
    const last = attempts[attempts.length - 1];
    if (hasLane(i)) last.to = i;
    if (kind[i] === "commit" || kind[i] === "trap") last.how = kind[i];
  }

  // ---- places: each event has one, or each step has its share; an outage has room of its own

  const OUTAGE = 3;
  function places(bySteps) {
    const place = new Float64Array(count);
    const each = Math.max(1e-9, step[count - 1] / count);
    let at = 0;
    for (let i = 0; i < count; i++) {
      if (i && kind[i] === "boot") at += OUTAGE;
      if (i) at += bySteps ? (step[i] - step[i - 1]) / each : 1;
      place[i] = at;
    }
    return place;
  }
  const placed = { event: places(false), step: places(true) };
  let place = placed.event;
  const total = () => place[count - 1] + 1;
  function firstAt(x) {
    let low = 0, high = count;
    while (low < high) {
      const mid = (low + high) >> 1;
      if (place[mid] < x) low = mid + 1;
      else high = mid;
    }
    return low;
  }

  // ---- drawing

  const LANE = 26, HEAD = 42, PAD = 18;
  const chosen = { at: 0 };
  let px = 20;
  const isDark = () => root.dataset.theme === "dark" || (!root.dataset.theme && matchMedia("(prefers-color-scheme: dark)").matches);
  const labelWidth = (width) => Math.min(330, Math.max(120, width * 0.3));
  const height = () => HEAD + lanes.length * LANE + 8;

  function fitted(ctx, text, width) {
    if (ctx.measureText(text).width <= width) return text;
    let low = 0, high = text.length;
    while (low < high) {
      const mid = (low + high + 1) >> 1;
      if (ctx.measureText(text.slice(0, mid) + "…").width <= width) low = mid;
      else high = mid - 1;
    }
    return text.slice(0, low) + "…";
  }

  // view: width and height of the canvas, its place in the run (left, top), the size of a place and the colours
  function drawLanes(ctx, view) {
    const { width, height, left, top, size, colour } = view;
    const label = labelWidth(width);
    const x = (at) => label + PAD + at * size - left;
    const y = (row) => HEAD + row * LANE + LANE / 2 - top;
    const from = Math.max(0, firstAt((left - PAD) / size - 4) - 1), to = Math.min(count, firstAt((left + width) / size + 4) + 1);
    ctx.fillStyle = colour.page;
    ctx.fillRect(0, 0, width, height);
    ctx.save();
    ctx.beginPath();
    ctx.rect(label, 0, width - label, height);
    ctx.clip();
    drawBoots(ctx, view, x, height);
    ctx.fillStyle = colour.line;
    for (let row = 0; row <= lanes.length; row++) ctx.fillRect(label, y(row) - LANE / 2, width, lanes[row] && lanes[row].task ? 1 : 0.5);
    drawChosen(ctx, view, x, y);
    ctx.save();
    ctx.beginPath();
    ctx.rect(label, HEAD, width - label, height);
    ctx.clip();
    drawAttempts(ctx, view, x, y, from, to);
    drawMarks(ctx, view, x, y, from, to);
    ctx.restore();
    ctx.restore();
    drawLabels(ctx, view, label, y);
  }

  function drawBoots(ctx, view, x, height) {
    const { width, colour, size } = view;
    let low = 0, high = starts.length;
    while (low < high) {
      const mid = (low + high) >> 1;
      if (x(place[starts[mid]]) < -width) low = mid + 1;
      else high = mid;
    }
    ctx.font = "600 13px system-ui, sans-serif";
    ctx.textBaseline = "middle";
    let free = -1e9;
    for (let b = Math.max(0, low - 1); b < starts.length; b++) {
      const behind = b + 1 < starts.length ? starts[b + 1] : count;
      const x0 = x(place[starts[b]] - 0.5), x1 = x((behind < count ? place[behind] - OUTAGE : place[count - 1]) + 0.5);
      if (x0 > width) break;
      if (x1 >= 0) {
        ctx.fillStyle = colour.band;
        ctx.fillRect(x0, 0, Math.max(1, x1 - x0), height);
        const named = `boot ${b + 1}`, words = x1 - x0 < ctx.measureText(named).width + 8 ? String(b + 1) : named;
        const shown = Math.max(x0 + 6, labelWidth(width) + 4);
        if (x1 - shown > ctx.measureText(words).width && shown > free) {
          ctx.fillStyle = colour.text;
          ctx.fillText(words, shown, 13);
          free = shown + ctx.measureText(words).width + 8;
          const steps = `${step[Math.min(behind, count - 1)] - step[starts[b]]} steps from ${step[starts[b]]}`;
          ctx.font = "12px system-ui, sans-serif";
          ctx.fillStyle = colour.soft;
          if (x1 - shown > ctx.measureText(steps).width) ctx.fillText(steps, shown, 30);
          ctx.font = "600 13px system-ui, sans-serif";
        }
      }
      if (behind < count) drawOutage(ctx, view, x1, x(place[behind] - 0.5), data.offs[b + 1], height, size);
    }
  }

  function drawOutage(ctx, view, x0, x1, off, height, size) {
    const { colour } = view;
    ctx.save();
    ctx.beginPath();
    ctx.rect(x0, 0, Math.max(0.5, x1 - x0), height);
    ctx.clip();
    ctx.strokeStyle = colour.off;
    ctx.lineWidth = 1;
    if (size * OUTAGE > 8) {
      ctx.beginPath();
      for (let at = -height; at < x1 - x0 + 8; at += 7) {
        ctx.moveTo(x0 + at, height);
        ctx.lineTo(x0 + at + height, 0);
      }
      ctx.stroke();
    } else {
      ctx.fillStyle = colour.off;
      ctx.fillRect(x0, 0, Math.max(0.5, x1 - x0), height);
    }
    const words = off === null || off === undefined ? ["no power", ""] : ["no power", `${off} ticks`];
    ctx.font = "11px system-ui, sans-serif";
    const fits = (pair) => Math.max(...pair.map((text) => ctx.measureText(text).width)) + 8 < x1 - x0;
    const pair = [words, ["off", words[1].split(" ")[0]]].find(fits);
    if (pair) pair.forEach((text, at) => text && onPaper(ctx, text, (x0 + x1) / 2, 13 + 17 * at, colour));
    else if (height - HEAD > 170 && x1 - x0 > 18) {
      ctx.translate((x0 + x1) / 2, height / 2 + HEAD / 2);
      ctx.rotate(-Math.PI / 2);
      onPaper(ctx, words.join(" for "), 0, 0, colour);
    }
    ctx.restore();
  }

  // words in the middle of a place, on ground of their own
  function onPaper(ctx, text, x, y, colour) {
    const wide = ctx.measureText(text).width;
    ctx.fillStyle = colour.page;
    ctx.fillRect(x - wide / 2 - 3, y - 8, wide + 6, 16);
    ctx.fillStyle = colour.text;
    ctx.textAlign = "center";
    ctx.textBaseline = "middle";
    ctx.fillText(text, x, y);
  }

  function drawChosen(ctx, view, x, y) {
    if (view.plain) return;
    ctx.globalAlpha = 0.45;
    ctx.fillStyle = view.colour.chosen;
    const wide = Math.max(3, Math.min(view.size, 26));
    ctx.fillRect(x(place[chosen.at]) - wide / 2, 0, wide, view.height);
    if (hasLane(chosen.at)) ctx.fillRect(0, y(lane[chosen.at]) - LANE / 2, view.width, LANE);
    ctx.globalAlpha = 1;
  }

  function drawAttempts(ctx, view, x, y, from, to) {
    const { colour, size } = view;
    let at = attempts.findIndex((attempt) => attempt.to >= from);
    for (; at >= 0 && at < attempts.length && attempts[at].from < to; at++) {
      const { from: a, to: b, lane: row, how } = attempts[at];
      const x0 = x(place[a]), x1 = x(place[b]);
      ctx.strokeStyle = ctx.fillStyle = how === "trap" ? colour.trap : how === "cut" ? colour.drop : colour.commit;
      ctx.lineWidth = 3;
      ctx.setLineDash(how === "cut" && size > 3 ? [5, 4] : []);
      ctx.beginPath();
      ctx.moveTo(x0, y(row));
      ctx.lineTo(Math.max(x1, x0 + 1), y(row));
      ctx.stroke();
      ctx.setLineDash([]);
    }
  }

  const RANK = { trap: 9, again: 8, issue: 7, kept: 6, commit: 5, copy: 4, lost: 3, begin: 2, seal: 1, drop: 1, look: 0 };

  function drawMarks(ctx, view, x, y, from, to) {
    const { colour, size } = view;
    if (size < 5) {
      const order = [...Array(to - from).keys()].map((i) => i + from).filter(hasLane);
      order.sort((a, b) => RANK[kind[a]] - RANK[kind[b]]);
      for (const i of order) {
        const tall = RANK[kind[i]] >= 4 ? 18 : 8;
        ctx.fillStyle = colour[kind[i]];
        ctx.fillRect(x(place[i]) - 0.75, y(lane[i]) - tall / 2, Math.max(1.5, size * 0.8), tall);
      }
      return;
    }
    let issuing = -1;
    ctx.font = "12px system-ui, sans-serif";
    ctx.textBaseline = "middle";
    for (let i = from; i < to; i++) {
      if (!hasLane(i)) continue;
      const here = lines[i].split(" ")[1];
      if (here === "look") issuing = i;
      if (kind[i] === "lost" && issuing >= 0 && lane[issuing] !== lane[i] && boot[issuing] === boot[i]) connect(ctx, view, x(place[i]), y(lane[issuing]), y(lane[i]));
      drawMark(ctx, kind[i], x(place[i]), y(lane[i]), colour, Math.min(1, size / 15));
      const words = lines[i].split(" ");
      const value = here === "issue" || here === "kept" ? words[words.length - 1] : "";
      if (value && ctx.measureText(value).width + 10 < size - 6) {
        ctx.fillStyle = colour.text;
        ctx.fillText(value, x(place[i]) + 10, y(lane[i]));
      }
    }
  }

  function connect(ctx, view, x, y0, y1) {
    ctx.strokeStyle = view.colour.lost;
    ctx.lineWidth = 1.2;
    ctx.setLineDash([2, 3]);
    ctx.beginPath();
    ctx.moveTo(x, y0);
    ctx.lineTo(x, y1);
    ctx.stroke();
    ctx.setLineDash([]);
  }

  function drawMark(ctx, name, x, y, colour, scale) {
    const { path, filled } = shapes[name];
    ctx.save();
    ctx.translate(x, y);
    ctx.scale(scale, scale);
    if (filled) {
      ctx.fillStyle = colour[name];
      ctx.fill(path);
    } else {
      if (name === "kept") {
        ctx.fillStyle = colour.page;
        ctx.fill(path);
      }
      ctx.strokeStyle = colour[name];
      ctx.lineWidth = name === "drop" || name === "look" ? 1.5 : 2.4;
      ctx.stroke(path);
    }
    ctx.restore();
  }

  function drawLabels(ctx, view, label, y) {
    const { colour } = view;
    ctx.fillStyle = colour.page;
    ctx.fillRect(0, 0, label, view.height);
    ctx.save();
    ctx.beginPath();
    ctx.rect(0, HEAD, label, view.height);
    ctx.clip();
    ctx.textBaseline = "middle";
    lanes.forEach((row, at) => {
      if (y(at) < 0 || y(at) > view.height + LANE) return;
      const mine = hasLane(chosen.at) && lane[chosen.at] === at && !view.plain;
      if (mine) {
        ctx.globalAlpha = 0.45;
        ctx.fillStyle = colour.chosen;
        ctx.fillRect(0, y(at) - LANE / 2, label, LANE);
        ctx.globalAlpha = 1;
      }
      ctx.fillStyle = colour.text;
      if (row.task) {
        ctx.font = "600 13px system-ui, sans-serif";
        ctx.fillText(fitted(ctx, `task ${row.task}`, label - 16), 8, y(at));
        return;
      }
      const [, number, line, , , , text] = row.site;
      ctx.font = "600 12px system-ui, sans-serif";
      ctx.fillText(String(number), 14, y(at));
      ctx.font = "12px ui-monospace, DejaVu Sans Mono, Menlo, Consolas, monospace";
      ctx.fillText(fitted(ctx, text, label - (label < 200 ? 46 : 92)), 38, y(at));
      if (label < 200) return;
      ctx.fillStyle = colour.soft;
      ctx.font = "11px system-ui, sans-serif";
      ctx.textAlign = "right";
      ctx.fillText(`line ${line}`, label - 8, y(at));
      ctx.textAlign = "left";
    });
    ctx.restore();
    ctx.fillStyle = colour.line;
    ctx.fillRect(label - 1, 0, 1, view.height);
    ctx.fillRect(0, HEAD - 1, view.width, 1);
  }

  function prepare(canvas, width, height, scale) {
    canvas.width = Math.round(width * scale);
    canvas.height = Math.round(height * scale);
    const ctx = canvas.getContext("2d");
    ctx.setTransform(scale, 0, 0, scale, 0, 0);
    return ctx;
  }

  const area = one("scroll"), spacer = one("spacer"), sheet = one("lanes"), overview = one("overview");
  let pending = false;
  function redraw() {
    if (pending) return;
    pending = true;
    requestAnimationFrame(() => {
      pending = false;
      drawNow();
    });
  }

  function drawNow() {
    const width = area.clientWidth, tall = Math.min(height(), Math.max(120, area.clientHeight || height()));
    const colour = isDark() ? data.dark : data.light;
    sheet.style.width = width + "px";
    sheet.style.height = tall + "px";
    const ctx = prepare(sheet, width, tall, devicePixelRatio || 1);
    drawLanes(ctx, { width, height: tall, left: area.scrollLeft, top: area.scrollTop, size: px, colour });
    drawOverview(overview.clientWidth, overview.clientHeight, overview, colour, true);
  }

  function layOut() {
    const width = area.clientWidth;
    spacer.style.width = Math.max(width, labelWidth(width) + 2 * PAD + total() * px) + "px";
    spacer.style.height = height() + "px";
    redraw();
  }

  // the whole run in one strip: for each column, above how much was done again and kept, below how much was issued and copied
  function drawOverview(width, height, canvas, colour, window) {
    const ctx = prepare(canvas, width, height, devicePixelRatio || 1);
    ctx.fillStyle = colour.page;
    ctx.fillRect(0, 0, width, height);
    const x = (at) => 4 + (at / total()) * (width - 8);
    ctx.fillStyle = colour.band;
    for (let b = 0; b < starts.length; b++) {
      const behind = b + 1 < starts.length ? place[starts[b + 1]] - OUTAGE : total();
      ctx.fillRect(x(place[starts[b]]), 0, Math.max(0.5, x(behind) - x(place[starts[b]])), height);
    }
    const room = (height - 14) / 2;
    drawColumns(ctx, width, room, room, ["again", "kept"], colour);
    drawColumns(ctx, width, 2 * room + 2, room, ["issue", "copy"], colour);
    ctx.fillStyle = colour.commit;
    for (let i = 0; i < count; i++) if (kind[i] === "commit") ctx.fillRect(x(place[i]), height - 9, 1.5, 8);
    if (!window) return;
    const wide = area.clientWidth - labelWidth(area.clientWidth);
    const x0 = x((area.scrollLeft - PAD) / px), x1 = x((area.scrollLeft - PAD + wide) / px);
    ctx.strokeStyle = colour.text;
    ctx.lineWidth = 1.5;
    ctx.strokeRect(Math.max(1, x0), 1, Math.min(width - 2, x1) - Math.max(1, x0), height - 2);
    ctx.fillStyle = colour.text;
    ctx.fillRect(x(place[chosen.at]) - 1, 0, 2, height);
  }

  function drawColumns(ctx, width, base, room, names, colour) {
    const columns = Math.ceil((width - 8) / 3);
    const counts = names.map(() => new Float64Array(columns + 1));
    for (let i = 0; i < count; i++) {
      const at = names.indexOf(kind[i]);
      if (at >= 0) counts[at][Math.floor((place[i] / total()) * columns)]++;
    }
    const sums = counts[0].map((_, c) => counts.reduce((sum, row) => sum + row[c], 0)), most = Math.max(1, ...sums);
    sums.forEach((_, c) => {
      let y = base;
      names.forEach((name, at) => {
        const tall = (counts[at][c] / most) * room;
        ctx.fillStyle = colour[name];
        ctx.fillRect(4 + c * 3, y - tall, 2.4, tall);
        y -= tall;
      });
    });
  }

  // ---- choosing

  function choose(at, options = {}) {
    chosen.at = Math.max(0, Math.min(count - 1, at));
    if (!options.still) reveal();
    tell();
    fillRows();
    redraw();
  }

  function reveal() {
    const wide = area.clientWidth - labelWidth(area.clientWidth), x = PAD + place[chosen.at] * px;
    if (x < area.scrollLeft + 30 || x > area.scrollLeft + wide - 30) area.scrollLeft = x - wide / 2;
    if (!hasLane(chosen.at)) return;
    const y = lane[chosen.at] * LANE, tall = area.clientHeight - HEAD - LANE;
    if (y < area.scrollTop) area.scrollTop = y;
    if (y > area.scrollTop + tall) area.scrollTop = y - tall;
  }

  function element(name, text, className) {
    const made = document.createElement(name);
    if (text !== undefined) made.textContent = text;
    if (className) made.className = className;
    return made;
  }

  function tell() {
    const i = chosen.at, box = one("chosen");
    box.replaceChildren();
    const attempt = data.attempts[i] && hasLane(i) ? `, task ${data.tasks[data.of[i] - 1]}, attempt ${data.attempts[i]}` : "";
    const where = element("p", undefined, "soft");
    where.append(`Line ${i + 1} of ${count}: `, element("code", lines[i]), ` · boot ${boot[i]}${attempt}`);
    box.append(where, element("p", sentence(i), "words"));
    const s = siteOf.get(data.of[i] + "." + site[i]);
    if (s) {
      const text = data.source[s[2] - 1], mark = " ".repeat(Math.max(0, s[3] - 1)) + "^";
      const front = `line ${s[2]}: `;
      box.append(element("pre", `${front}${text}\n${" ".repeat(front.length)}${mark.replace(/ /g, " ")}`, "code"));
    }
  }

  // ---- the table of events around the one that is chosen

  const ROWS = 25;
  let page = 0;
  function fillRows() {
    page = Math.floor(chosen.at / ROWS);
    showRows();
  }

  function showRows() {
    const body = one("rows");
    body.replaceChildren();
    for (let i = page * ROWS; i < Math.min(count, (page + 1) * ROWS); i++) {
      const row = element("tr", undefined, i === chosen.at ? "chosen" : "");
      const go = element("button", `line ${i + 1}`, "go");
      go.type = "button";
      go.dataset.line = i;
      const first = element("td");
      first.append(go);
      row.append(first, element("td", lines[i]), element("td", boot[i]), element("td", sentence(i)));
      body.append(row);
    }
  }

  function find(words) {
    const wanted = words.toLowerCase();
    if (!wanted) return;
    for (let n = 1; n <= count; n++) {
      const i = (chosen.at + n) % count;
      if (lines[i].toLowerCase().includes(wanted) || sentence(i).toLowerCase().includes(wanted)) return choose(i);
    }
  }

  // ---- moving

  function along(by, fits) {
    for (let i = chosen.at + by; i >= 0 && i < count; i += by) if (fits(i)) return choose(i);
  }
  const ofSite = (i) => hasLane(i) && hasLane(chosen.at) && lane[i] === lane[chosen.at];
  const isBoot = (i) => kind[i] === "boot";

  function zoom(factor, middle) {
    const wide = area.clientWidth - labelWidth(area.clientWidth);
    const held = middle === undefined ? wide / 2 : middle;
    const at = (area.scrollLeft + held - PAD) / px;
    const least = (wide - 2 * PAD) / total(), most = Math.min(400, 3e7 / total());
    px = Math.max(Math.min(least, 44), Math.min(most, px * factor));
    layOut();
    area.scrollLeft = at * px + PAD - held;
    redraw();
  }

  function fit() {
    zoom(1e-9);
    area.scrollLeft = 0;
  }

  function space(how) {
    const at = chosen.at;
    one("spacing").value = how;
    place = placed[how];
    layOut();
    choose(at);
  }

  function switchTheme() {
    root.dataset.theme = isDark() ? "light" : "dark";
    redraw();
  }

  const acts = {
    back: () => choose(chosen.at - 1),
    next: () => choose(chosen.at + 1),
    "site-back": () => along(-1, ofSite),
    "site-next": () => along(1, ofSite),
    "again-back": () => along(-1, isAgain),
    "again-next": () => along(1, isAgain),
    "boot-back": () => along(-1, isBoot),
    "boot-next": () => along(1, isBoot),
    in: () => zoom(1.5),
    out: () => zoom(1 / 1.5),
    fit,
    theme: switchTheme,
    "page-back": () => { page = Math.max(0, page - 1); showRows(); },
    "page-next": () => { page = Math.min(Math.floor((count - 1) / ROWS), page + 1); showRows(); },
  };
  const keys = {
    ArrowLeft: "back", ArrowRight: "next", ArrowUp: "site-back", ArrowDown: "site-next", PageUp: "boot-back", PageDown: "boot-next",
    r: "again-next", R: "again-back", "+": "in", "=": "in", "-": "out", 0: "fit",
  };

  area.addEventListener("keydown", (event) => {
    if (event.ctrlKey || event.metaKey || event.altKey) return;
    if (event.key === "Home") choose(0);
    else if (event.key === "End") choose(count - 1);
    else if (event.key === "s") space(one("spacing").value === "event" ? "step" : "event");
    else if (keys[event.key]) acts[keys[event.key]]();
    else return;
    event.preventDefault();
  });

  document.addEventListener("click", (event) => {
    const go = event.target.closest("[data-line]"), act = event.target.closest("[data-act]");
    if (act) acts[act.dataset.act]();
    if (!go) return;
    choose(Number(go.dataset.line));
    if (!go.closest("#rows")) one("run").scrollIntoView({ block: "start" });
  });

  // the mark under a pointer, or none
  function under(event) {
    const box = sheet.getBoundingClientRect(), label = labelWidth(area.clientWidth);
    const x = event.clientX - box.left - label - PAD + area.scrollLeft, y = event.clientY - box.top - HEAD + area.scrollTop;
    const row = Math.floor(y / LANE);
    let best = -1, far = Math.max(10, px * 0.6) / px;
    for (let i = Math.max(0, firstAt(x / px - far)); i < count && place[i] <= x / px + far; i++) {
      const near = Math.abs(place[i] - x / px);
      if (hasLane(i) && lane[i] === row && (best < 0 || near < Math.abs(place[best] - x / px))) best = i;
      if (!hasLane(i) && y < 0 && best < 0) best = i;
    }
    return best;
  }
  sheet.addEventListener("click", (event) => {
    const at = under(event);
    area.focus({ preventScroll: true });
    if (at >= 0) choose(at, { still: true });
  });
  sheet.addEventListener("mousemove", (event) => {
    const at = under(event);
    sheet.title = at >= 0 ? sentence(at) : "";
  });
  area.addEventListener("scroll", redraw);
  area.addEventListener("wheel", (event) => {
    if (!event.ctrlKey) return;
    event.preventDefault();
    zoom(Math.exp(-event.deltaY / 300), event.clientX - sheet.getBoundingClientRect().left - labelWidth(area.clientWidth));
  }, { passive: false });

  function moveTo(event) {
    const box = overview.getBoundingClientRect();
    const wide = area.clientWidth - labelWidth(area.clientWidth);
    area.scrollLeft = ((event.clientX - box.left - 4) / (box.width - 8)) * total() * px + PAD - wide / 2;
  }
  overview.addEventListener("pointerdown", (event) => { overview.setPointerCapture(event.pointerId); moveTo(event); });
  overview.addEventListener("pointermove", (event) => { if (event.buttons) moveTo(event); });

  one("spacing").addEventListener("change", () => space(one("spacing").value));
  one("find").addEventListener("submit", (event) => { event.preventDefault(); find(one("words").value); });
  one("line").addEventListener("change", () => choose(Number(one("line").value) - 1));
  one("line").max = count;
  addEventListener("resize", layOut);
  matchMedia("(prefers-color-scheme: dark)").addEventListener("change", redraw);

  // ---- paper: a short run in strips, a long one as a whole and as it is seen

  const SHORT = 700;
  function strip(left, size, wide) {
    const canvas = document.createElement("canvas");
    drawLanes(prepare(canvas, wide, height(), 2), { width: wide, height: height(), left, top: 0, size, colour: data.light, plain: true });
    return canvas;
  }
  function printed() {
    const box = one("printed"), wide = 1100, room = wide - labelWidth(wide);
    box.replaceChildren();
    const canvases = [];
    if (count <= SHORT) {
      const size = Math.max(14, Math.min(44, (room - 2 * PAD) / total()));
      const each = Math.floor((room - PAD) / size) * size;
      for (let left = 0; left < total() * size; left += each) canvases.push(strip(left, size, wide));
    } else {
      const whole = document.createElement("canvas");
      drawOverview(wide, 90, whole, data.light, false);
      canvases.push(whole, strip(0, (room - 2 * PAD) / total(), wide), strip(Math.max(0, place[chosen.at] * 14 - room / 2), 14, wide));
    }
    for (const canvas of canvases) {
      const image = new Image();
      image.alt = "";
      image.src = canvas.toDataURL();
      box.append(image);
    }
  }
  addEventListener("beforeprint", printed);

  // ---- the beginning; `#line=24&size=20&by=step&theme=dark` in the address chooses another one

  const asked = new URLSearchParams(location.hash.slice(1));
  if (asked.get("theme")) root.dataset.theme = asked.get("theme");
  if (asked.get("by") === "step") { place = placed.step; one("spacing").value = "step"; }
  const room = area.clientWidth - labelWidth(area.clientWidth) - 2 * PAD;
  px = Number(asked.get("size")) || Math.max(14, Math.min(44, room / total()));
  if (asked.get("size") === "fit") fit();
  layOut();
  const firstAgain = kind.indexOf("again");
  choose(asked.get("line") ? Number(asked.get("line")) - 1 : firstAgain >= 0 && firstAgain < 60 ? firstAgain : 0);
  printed();
  drawNow();
})();
