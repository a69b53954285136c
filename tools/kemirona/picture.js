"use strict";
(() => {
  const GRANULE = 8192, SLAB = 16384, SLAB_ROOM = 16256;
  const SNAPSHOT = 1000;              // events between two kept states
  const COLUMNS = 64, CELL = 10, ROW = 26, BAR = 22, LABEL = 18, LABEL_WIDTH = 180, GAP = 16;
  const AREA = { width: 640, height: 180 };
  const MOST_LISTED = 24;
  const MOVE = 0, KEEPER = 1;         // the third kind of event ends a pool
  const COLOURS = {
    object: "#2166ac", "large-head": "#1b1b4d", head: "#555555", private: "#5aae61", public: "#f1a340",
    rest: "#b8d4ea", "slab-cache": "#1b9e9e", cached: "#9970ab", hand: "#e7298a", queue: "#d73027",
    waste: "#a08060", bin: "#e6e6e6",
  };
  const data = JSON.parse(document.getElementById("data").textContent);
  const byId = id => document.getElementById(id);

  const make = (parent, name, attributes = {}, text = "") => {
    const isSvg = ["svg", "path", "line", "text", "g"].includes(name);
    const made = isSvg ? document.createElementNS("http://www.w3.org/2000/svg", name) : document.createElement(name);
    for (const [key, value] of Object.entries(attributes)) made.setAttribute(key, value);
    if (text) made.textContent = text;
    parent.append(made);
    return made;
  };

  const kindOf = holder => holder.split(":")[0];
  const ownerOf = holder => holder.slice(holder.indexOf(":") + 1);
  const bytesText = count => count >= 1048576 ? (count / 1048576).toFixed(2) + " MiB"
    : count >= 1024 ? (count / 1024).toFixed(1) + " KiB" : count + " bytes";

  /* ---- the state of the pools after so many events ---- */

  // A region is a list of parts [offset, bytes, holder] in order; no part is ever changed, so that states share them.
  class State {
    constructor(regions = new Map(), keepers = new Map()) {
      this.regions = regions;
      this.keepers = keepers;
    }

    copy() {
      const copyOf = ([key, region]) => [key, { ...region, parts: region.parts.slice() }];
      return new State(new Map([...this.regions].map(copyOf)), new Map(this.keepers));
    }

    apply(film, event) {
      const [kind, pool, number, offset, bytes, , to] = event;
      const key = pool * 4194304 + number;
      if (kind === MOVE) this.move(film, event, key);
      else if (kind === KEEPER) this.keepers.set(key + "+" + offset, film.words[to]);
      else for (const [other, region] of this.regions) if (region.pool === pool) this.regions.delete(other);
    }

    move(film, [, pool, number, offset, bytes, from, to], key) {
      let region = this.regions.get(key);
      if (!region) this.regions.set(key, region = { pool, number, parts: [] });
      if (film.kinds[to] === "head") this.keepers.set(key + "+" + offset, ownerOf(film.words[from]));
      replace(region.parts, offset, bytes, film.kinds[to] === "none" ? -1 : to);
      if (!region.parts.length) this.regions.delete(key);
    }
  }

  // The first part that ends behind the offset.
  function find(parts, offset) {
    let low = 0, high = parts.length;
    while (low < high) {
      const middle = (low + high) >> 1;
      if (parts[middle][0] + parts[middle][1] <= offset) low = middle + 1; else high = middle;
    }
    return low;
  }

  function replace(parts, offset, bytes, holder) {
    const end = offset + bytes, first = find(parts, offset), made = [];
    let last = first;
    while (last < parts.length && parts[last][0] < end) last++;
    if (last > first && parts[first][0] < offset) {
      const [at, , was] = parts[first];
      made.push([at, offset - at, was]);
    }
    if (holder >= 0) made.push([offset, bytes, holder]);
    if (last > first) {
      const [at, size, was] = parts[last - 1];
      if (at + size > end) made.push([end, at + size - end, was]);
    }
    parts.splice(first, last - first, ...made);
  }

  /* ---- a film: a report's steps, and the state after each ---- */

  class Film {
    constructor(value) {
      Object.assign(this, value);
      this.kinds = this.words.map(kindOf);
      this.snapshots = [new State()];
      const state = new State();
      this.events.forEach((event, at) => {
        state.apply(this, event);
        if ((at + 1) % SNAPSHOT === 0) this.snapshots.push(state.copy());
      });
      this.at = 0;
      this.state = new State();
    }

    eventsAfter(step) { return step < this.steps.length ? this.steps[step][0] : this.events.length; }

    // Goes on from where the film stands, or else from the nearest state that was kept.
    seek(step) {
      const wanted = this.eventsAfter(step), kept = Math.floor(wanted / SNAPSHOT);
      if (wanted < this.at || kept * SNAPSHOT > this.at) {
        this.state = this.snapshots[kept].copy();
        this.at = kept * SNAPSHOT;
      }
      while (this.at < wanted) this.state.apply(this, this.events[this.at++]);
    }

    // The size of the slab's objects: that of one that it has, or else of the next that it hands out.
    classOf(key, start) {
      for (const [offset, bytes, holder] of within(this.state.regions.get(key), start, SLAB))
        if (offset >= start && ["object", "private", "public"].includes(this.kinds[holder])) return bytes;
      for (let i = this.at; i < this.events.length; i++) {
        const [kind, pool, number, offset, bytes, , to] = this.events[i];
        if (kind === MOVE && pool * 4194304 + number === key && offset >= start && offset < start + SLAB
          && this.kinds[to] === "object") return bytes;
      }
      return 0;
    }
  }

  function within(region, start, bytes) {
    const found = [];
    for (let i = find(region.parts, start); i < region.parts.length && region.parts[i][0] < start + bytes; i++)
      found.push(region.parts[i]);
    return found;
  }

  /* ---- what pointing at a granule tells ---- */

  function tell(film, key, start) {
    const region = film.state.regions.get(key);
    const name = `P${region.pool}.R${region.number}`;
    const parts = within(region, start, GRANULE);
    const lines = [`granule at ${name}+${start}`];
    const slab = [start, start - GRANULE].find(at => within(region, at, 1).some(part => part[0] === at
      && film.kinds[part[2]] === "head"));
    if (slab !== undefined) return lines.concat(tellSlab(film, key, region, slab, name)).join("\n");
    for (const [offset, bytes, holder] of parts) lines.push(tellPart(film, offset, bytes, film.words[holder], name));
    return lines.join("\n");
  }

  function tellPart(film, offset, bytes, holder, name) {
    const where = `${bytes} bytes at ${name}+${offset}`;
    const owner = ownerOf(holder);
    return {
      object: `large object ${owner}, of thread ${owner.split("#")[0]}: ${where}`,
      "large-head": `head of the large object ${owner}: ${where}`,
      "slab-cache": `empty slab that ${owner} keeps: ${where}`,
      cached: `block of ${owner} granules in the cache of large objects: ${where}`,
      bin: `free block in a bin: ${where}`,
      queue: `block that waits to be joined: ${where}`,
      hand: `in the hand of ${owner}: ${where}`,
      waste: `waste of the region: ${where}`,
    }[kindOf(holder)] || `${holder}: ${where}`;
  }

  function tellSlab(film, key, region, slab, name) {
    const size = film.classOf(key, slab), keeper = film.state.keepers.get(key + "+" + slab);
    const counts = { object: 0, private: 0, public: 0, hand: 0 }, held = [];
    let rest = 0;
    for (const [offset, bytes, holder] of within(region, slab, SLAB)) {
      const kind = film.kinds[holder];
      if (kind in counts) counts[kind]++;
      if (kind === "rest") rest += bytes;
      if (kind === "object") held.push(`${ownerOf(film.words[holder])} at +${offset}`);
    }
    const room = size ? Math.floor(SLAB_ROOM / size) : 0;
    const whose = keeper === "orphan" ? "an orphan" : `kept by ${keeper}`;
    const lines = [`slab of class ${size || "?"} at ${name}+${slab}, ${whose}`,
      `${room} objects: ${counts.object} held, ${counts.private} private, ${counts.public} public, `
      + `${size ? rest / size : 0} rest${counts.hand ? `, ${counts.hand} in a hand` : ""}`];
    const threads = new Map();
    for (const text of held) threads.set(text.split("#")[0], (threads.get(text.split("#")[0]) || 0) + 1);
    if (held.length) lines.push("held by " + [...threads].map(([thread, count]) => `${thread}: ${count}`).join(", "));
    lines.push(...held.slice(0, MOST_LISTED));
    if (held.length > MOST_LISTED) lines.push(`and ${held.length - MOST_LISTED} more`);
    return lines;
  }

  /* ---- drawing ---- */

  class Panel {
    constructor(film) {
      this.film = film;
      this.rows = [];                 // of the regions as drawn: where each one's granules lie
      const section = make(byId("films"), "section");
      make(section, "h2", {}, film.name);
      this.step = make(section, "div", { class: "step" });
      make(section, "h3", {}, "bytes by holder");
      this.areas = make(section, "svg", { viewBox: `0 0 ${AREA.width} ${AREA.height + 16}`, class: "areas" });
      this.areaPaths = data.stack.map(kind => make(this.areas, "path", { fill: COLOURS[kind] }));
      this.most = make(this.areas, "text", { x: 4, y: 12 });
      this.cursor = make(this.areas, "line", { class: "cursor", y1: 0, y2: AREA.height });
      make(section, "h3", {}, "regions, a bar for each granule");
      this.bars = make(section, "svg", { class: "regions" });
      this.barPaths = data.stack.map(kind => make(this.bars, "path", { fill: COLOURS[kind], class: `bar ${kind}` }));
      this.frames = make(this.bars, "path", { class: "frame" });
      this.labels = make(this.bars, "g");
      this.bars.addEventListener("pointermove", event => this.point(event));
      this.bars.addEventListener("pointerleave", () => { byId("tip").hidden = true; });
    }

    // A state stands until the next step, so that the areas' edges are steps too.
    drawAreas(top, withBins) {
      const { points, steps } = this.film, base = points.map(() => 0);
      const x = points.map(point => this.acrossOf(point[0]).toFixed(1)).concat(AREA.width);
      const y = value => (AREA.height * (1 - value / top)).toFixed(1);
      data.stack.forEach((kind, k) => {
        const isShown = steps.length && (withBins || kind !== "bin"), down = [];
        let path = "";
        if (isShown) points.forEach((point, i) => {
          const low = y(base[i]);
          base[i] += point[k + 1];
          path += `${i ? "V" : `M${x[0]} `}${y(base[i])}H${x[i + 1]}`;
          down.push(`V${low}H${x[i]}`);
        });
        this.areaPaths[k].setAttribute("d", isShown ? path + down.reverse().join("") + "Z" : "");
      });
      this.most.textContent = bytesText(top);
    }

    acrossOf(step) { return step / (this.film.steps.length + 1) * AREA.width; }

    draw(step) {
      const film = this.film;
      this.shown = step;
      film.seek(step);
      const x = this.acrossOf(step + 0.5);
      this.cursor.setAttribute("x1", x);
      this.cursor.setAttribute("x2", x);
      this.step.textContent = step ? this.stepText(step - 1) : "nothing has moved";
      this.drawBars();
    }

    stepText(at) {
      const film = this.film, [, number, thread, row] = film.steps[at];
      const head = `line ${film.lines[at]}: `;
      if (film.words[row] === "destroy") return head + "the pool is destroyed";
      const texts = film.events.slice(film.steps[at][0], film.eventsAfter(at + 1)).slice(0, 3).map(
        ([kind, pool, region, offset, bytes, from, to]) => `P${pool}.R${region}+${offset} `
          + (kind === KEEPER ? "keeper " : `${bytes} bytes `) + `${film.words[from]} → ${film.words[to]}`);
      return head + `move ${number} by ${film.words[thread]}, ${film.words[row]}: ${texts.join("; ")}`;
    }

    drawBars() {
      const paths = Object.fromEntries(data.stack.map(kind => [kind, []])), frames = [];
      const regions = [...this.film.state.regions].sort((a, b) => a[0] - b[0]);
      const height = Math.max(ROW, this.layOut(regions));
      this.labels.replaceChildren();
      this.rows.forEach((row, i) => {
        const region = regions[i][1];
        make(this.labels, "text", { x: row.left, y: row.top - 5 },
          `P${region.pool}.R${region.number}: ${bytesText(row.bytes)}, ${row.granules} granules`);
        this.drawRegion(region, row, paths, frames);
      });
      data.stack.forEach((kind, k) => this.barPaths[k].setAttribute("d", paths[kind].join("")));
      this.frames.setAttribute("d", frames.join(""));
      if (height !== this.height) this.bars.setAttribute("viewBox", `0 0 ${COLUMNS * CELL} ${this.height = height}`);
    }

    // Finds where each region's bars go, small ones beside each other, and answers how high all are.
    layOut(regions) {
      let left = 0, top = 0, tallest = 0;
      this.rows = regions.map(([key, region]) => {
        const span = extent(this.film, region);
        const width = Math.max(LABEL_WIDTH, Math.min(span.granules, COLUMNS) * CELL);
        if (left + width > COLUMNS * CELL) {
          top += tallest;
          left = tallest = 0;
        }
        const row = { key, left, top: top + LABEL, ...span };
        left += width + GAP;
        tallest = Math.max(tallest, LABEL + Math.ceil(span.granules / COLUMNS) * ROW);
        return row;
      });
      return top + tallest;
    }

    // Each granule's bar is filled from its bottom by the shares of its holders.
    drawRegion(region, { first, granules, left, top }, paths, frames) {
      const shares = Array.from({ length: granules }, () => new Map());
      for (const [offset, bytes, holder] of region.parts) {
        const kind = this.film.kinds[holder];
        for (let at = Math.max(offset, first); at < offset + bytes;) {
          const granule = Math.floor((at - first) / GRANULE);
          const end = Math.min(offset + bytes, first + (granule + 1) * GRANULE);
          if (granule >= granules) break;
          shares[granule].set(kind, (shares[granule].get(kind) || 0) + end - at);
          at = end;
        }
      }
      shares.forEach((share, granule) => {
        const x = left + granule % COLUMNS * CELL, row = top + Math.floor(granule / COLUMNS) * ROW;
        let bottom = row + BAR;
        for (const kind of data.stack) {
          const height = (share.get(kind) || 0) / GRANULE * BAR;
          if (!height) continue;
          bottom -= height;
          paths[kind].push(`M${x} ${bottom.toFixed(2)}h9v${height.toFixed(2)}h-9z`);
        }
        frames.push(`M${x} ${row}h9v${BAR}h-9z`);
      });
    }

    // The granule under a pointer, as the region's key and the granule's offset.
    granuleAt(x, y) {
      const box = this.bars.getBoundingClientRect(), scale = COLUMNS * CELL / box.width;
      const across = (x - box.left) * scale, down = (y - box.top) * scale;
      for (const { key, left, top, first, granules } of this.rows) {
        const column = Math.floor((across - left) / CELL), granule = Math.floor((down - top) / ROW) * COLUMNS + column;
        if (down >= top && column >= 0 && column < COLUMNS && granule < granules)
          return { key, start: first + granule * GRANULE };
      }
      return null;
    }

    point(event) {
      const tip = byId("tip"), found = this.granuleAt(event.clientX, event.clientY);
      tip.hidden = !found;
      if (!found) return;
      tip.textContent = tell(this.film, found.key, found.start);
      tip.style.left = Math.min(event.clientX + 14, window.innerWidth - tip.offsetWidth - 8) + "px";
      tip.style.top = Math.max(4, Math.min(event.clientY + 14, window.innerHeight - tip.offsetHeight - 8)) + "px";
    }
  }

  // A region's granules: from behind its waste in front, as many as are whole.
  function extent(film, { parts }) {
    const [offset, size, holder] = parts[0], last = parts[parts.length - 1];
    const first = film.kinds[holder] === "waste" && parts.length > 1 ? offset + size : offset;
    const end = last[0] + last[1];
    return { first, granules: Math.floor((end - first) / GRANULE), bytes: end };
  }

  /* ---- the page ---- */

  const films = data.films.map(value => new Film(value));
  const panels = films.map(film => new Panel(film));

  // One report goes move by move. Two go by the trace's lines, so that both stand at the same call.
  const lines = [...new Set(films.flatMap(film => film.lines))].sort((a, b) => a - b);
  const most = films.length === 1 ? films[0].steps.length : lines.length;

  function stepAt(film, position) {
    if (films.length === 1 || position === 0) return position;
    let low = 0, high = film.lines.length;
    while (low < high) {
      const middle = (low + high) >> 1;
      if (film.lines[middle] <= lines[position - 1]) low = middle + 1; else high = middle;
    }
    return low;
  }

  const legend = data.stack.map(kind => {
    const item = make(byId("legend"), "li");
    make(item, "i", { style: `background:${COLOURS[kind]}` });
    return make(item, "span", {}, kind);
  });

  function show(position) {
    byId("slider").value = position;
    panels.forEach(panel => panel.draw(stepAt(panel.film, position)));
    byId("where").textContent = films.length === 1 ? `move ${position} of ${most}`
      : position ? `after line ${lines[position - 1]} of the trace` : "before the trace";
    const sums = panels.map(panel => {
      const bytes = Object.fromEntries(data.stack.map(kind => [kind, 0]));
      for (const region of panel.film.state.regions.values())
        for (const part of region.parts) bytes[panel.film.kinds[part[2]]] += part[1];
      return bytes;
    });
    legend.forEach((span, k) => {
      const kind = data.stack[k];
      span.textContent = `${kind} ${sums.map(bytes => bytesText(bytes[kind])).join(" | ")}`;
    });
  }

  function drawAreas() {
    const withBins = byId("bins").checked, skipped = withBins ? -1 : data.stack.indexOf("bin");
    const sum = point => point.slice(1).reduce((all, bytes, k) => all + (k === skipped ? 0 : bytes), 0);
    const top = Math.max(1, ...films.flatMap(film => film.points.map(sum)));
    panels.forEach(panel => panel.drawAreas(top, withBins));
  }

  let timer = 0;
  function play(isOn) {
    clearInterval(timer);
    timer = 0;
    byId("play").textContent = isOn ? "pause" : "play";
    if (!isOn) return;
    if (+byId("slider").value >= most) show(0);
    const stride = Math.max(1, Math.round(most / 900)), pause = Math.max(33, Math.min(400, 20000 / most));
    timer = setInterval(() => {
      show(Math.min(most, +byId("slider").value + stride));
      if (+byId("slider").value >= most) play(false);
    }, pause);
  }

  byId("slider").max = most;
  byId("slider").addEventListener("input", event => { play(false); show(+event.target.value); });
  byId("play").addEventListener("click", () => play(!timer));
  byId("bins").addEventListener("change", drawAreas);
  drawAreas();
  show(most);
  window.picture = { show, most, panels };
})();
