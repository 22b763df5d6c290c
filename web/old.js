/* Runs only where a browser knows no modules, so in the words of such a browser: it says that the browser is too old. */
(function () {
  function say() {
    var loading = document.getElementById("starting");
    if (loading) loading.hidden = true;
    document.getElementById("too-old").hidden = false;
  }
  if (document.readyState === "loading") document.addEventListener("DOMContentLoaded", say);
  else say();
})();
