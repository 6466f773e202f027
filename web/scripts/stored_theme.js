// Before anything is shown: the colours that were chosen, if the system's were not.
{
  const theme = localStorage.getItem('theme');
  if (theme) document.documentElement.dataset.theme = theme;
}
