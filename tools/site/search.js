const box = document.getElementById("search"), found = document.getElementById("found");
box.addEventListener("input", () => {
  const words = box.value.toLowerCase().split(/\s+/).filter(Boolean);
  const score = ([name, , , said]) => words.every(w => (name + " " + said).toLowerCase().includes(w))
    ? (words.every(w => name.toLowerCase().includes(w)) ? 0 : 1000) + name.length : -1;
  found.innerHTML = "";
  if (!words.length) return;
  INDEX.map(it => [score(it), it]).filter(it => it[0] >= 0).sort((a, b) => a[0] - b[0]).slice(0, 40).forEach(([, it]) => {
    const row = document.createElement("li"), link = document.createElement("a"), small = document.createElement("small");
    link.href = it[2]; link.textContent = it[0]; small.textContent = it[1] + (it[3] ? ": " + it[3] : "");
    row.append(link, small); found.append(row);
  });
});
