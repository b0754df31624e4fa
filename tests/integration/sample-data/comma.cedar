permit (
  principal,
  action,
  resource, // the last
);
